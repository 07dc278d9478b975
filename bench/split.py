#!/usr/bin/env python3
"""Times batches by one process, by GNU parallel, by split and xargs, and by Dask, and says whether the bytes are the same.

The lines are IDs that the collection's programs make (Debian's sgt-puzzles), else `generate`; easy ones are fed many times over.
`grade` and `generate` have a process for each line, in a loop of the shell. A part has as many lines as one process answers in a
second, but each of the JOBS has four parts at least. The least of three times counts, of one where that is over 20 seconds.
Dask's scheduler and workers run before the time begins. A second table has the time by Dask for parts of other sizes.
It needs GNU parallel, xargs and Debian's python3-distributed for /usr/bin/python3. Nothing is asserted but the bytes.
"""
import functools
import os
import shutil
import signal
import subprocess
import sys
import tempfile
import time

from support import dask, real, words
from puzzles._work import begin

# The name of a row, its words, whether lines are IDs (of the game, size and letters that follow) or seeds, how many lines are made,
# and how often these are fed.
KINDS = [
    ("`solve`, Solo 3x3", ["solve", "solo"], ("solo", "3x3", ""), 2000, 50),
    ("`solve`, Tents 20x20", ["solve", "tents"], ("tents", "20x20", "dt"), 200, 1),
    ("`grade`, Solo 3x3", ["grade", "solo", "--"], ("solo", "3x3", ""), 2000, 5),
    ("`generate`, Solo 3x3", ["generate", "solo", "3x3", "--seed"], None, 2000, 1),
    ("`generate`, Tents 20x20", ["generate", "tents", "20x20", "--seed"], None, 100, 1),
]
PARTS = [("`solve`, Solo 3x3", (100, 1000, 10_000)), ("`solve`, Tents 20x20", (1, 5, 25))]
MAKING_SECONDS = 120
LONG_SECONDS = 20
RUN_SECONDS = 3600
PYTHON = "/usr/bin/python3"
TOOLS = ("parallel", "xargs", "split", "bash")


def loop_of(line):
    """What answers the lines of its input."""
    if line[0] == "solve":
        return "puzzles " + " ".join(line)
    return f'while IFS= read -r line; do puzzles {" ".join(line)} "$line"; done'


def ways(bench, path, line, jobs, lines):
    """The command line of each way but Dask. Each writes to its standard output."""
    loop, parts = loop_of(line), bench.folder / "parts"
    split = (f"mkdir {parts} && split -a 5 -l {lines} {path} {parts}/part. && ls {parts}/part.????? | "
             f"xargs -P {jobs} -I {{}} bash -c '{{ {loop}; }} < {{}} > {{}}.answers'; cat {parts}/part.?????.answers; rm -r {parts}")
    return [
        ["bash", "-c", f"{{ {loop}; }} < {path}"],
        ["parallel", "--will-cite", "--pipepart", "-a", path, "--block", "-4", "-k", "-j", str(jobs), loop],
        ["bash", "-c", split],
    ]


def run(bench, way):
    """The seconds and the output of a way."""
    with open(bench.folder / "output", "wb") as output:
        start = time.perf_counter()
        subprocess.run(way, stdin=subprocess.DEVNULL, stdout=output, env=bench.environment, check=False, timeout=RUN_SECONDS)
        taken = time.perf_counter() - start
    return taken, (bench.folder / "output").read_bytes()


def least(bench, way):
    """The least seconds of some runs, and the output."""
    taken, output = run(bench, way)
    for _ in range(0 if taken > LONG_SECONDS else 2):
        taken = min(taken, run(bench, way)[0])
    return taken, output


def by_dask(bench, address, path, line, lines):
    more = line if line[0] == "solve" else [*line, "{}"]
    return bench.command(address, path, more, ["--lines", lines, "--seconds", RUN_SECONDS])


@functools.cache
def made(program, source, count):
    """Puzzles of a kind, made once for all its batches, and who made them."""
    return real.some(program, *source, count, MAKING_SECONDS)


def lines_of(program, source, count, times):
    """The lines of a kind, and who made them."""
    if source is None:
        return [str(seed) for seed in range(1, count + 1)], "seeds"
    found, maker = made(program, source, count)
    return found * times, maker


def text_of(taken, count):
    rate = count / taken
    return f"{taken:.2f} s, {rate:,.0f} a second" if rate >= 10 else f"{taken:.2f} s, {rate:.2g} a second"


def compare(bench, address, jobs, kind):
    """Prints the row of a kind, and says whether all outputs are the same bytes. Its lines stay in a file of its own."""
    name, line, source, count, times = kind
    lines, maker = lines_of(bench.bin / "puzzles", source, count, times)
    if not lines:
        print(f"| {name} | no line was made in {MAKING_SECONDS} s |", flush=True)
        return True, None
    path = bench.folder / f"{line[0]}-{line[1]}-{count}.txt"
    path.write_text("".join(f"{text}\n" for text in lines))
    first, wanted = least(bench, ways(bench, path, line, jobs, 1)[0])
    part = max(1, min(round(len(lines) / first), len(lines) // (4 * jobs)))
    results = [least(bench, way) for way in ways(bench, path, line, jobs, part)[1:]]
    results.append(least(bench, by_dask(bench, address, path, line, part)))
    same = all(output == wanted for _, output in results)
    cells = " | ".join(text_of(taken, len(lines)) for taken in [first, *(taken for taken, _ in results)])
    print(f"| {name} ({maker}) | {len(lines):,} | {cells} | {part:,} | {'same' if same else 'DIFFERENT'} |", flush=True)
    return same, path


def main():
    form = words.form(__doc__)
    form.add_argument("jobs", metavar="JOBS", type=words.count, nargs="?", default=os.cpu_count(), help="at a time; else one a core")
    asked = form.parse_args()
    missing = [tool for tool in TOOLS if not shutil.which(tool)] + ([] if dask.has_dask(PYTHON) else ["python3-distributed"])
    if missing:
        form.error(f"needed and not found: {', '.join(missing)}")
    signal.signal(signal.SIGTERM, lambda *_: sys.exit(143))  # so that what was started is ended
    with tempfile.TemporaryDirectory(ignore_cleanup_errors=True) as folder:
        bench = dask.Bench(asked.program, PYTHON, folder)
        try:
            with dask.cluster(bench, asked.jobs) as (address, _, _):
                return measure(bench, address, asked.jobs)
        except (dask.Wrong, OSError, subprocess.SubprocessError) as fault:
            sys.exit(f"split.py: {fault}")


def measure(bench, address, jobs):
    """Prints both tables; the exit status."""
    print(f"load of the machine at the start: {os.getloadavg()[0]:.1f} on {os.cpu_count()} cores", file=sys.stderr)
    print("| Batch | Lines | One process | GNU parallel | split and xargs | Dask | Lines a part | Bytes |")
    print("|---|---|---|---|---|---|---|---|", flush=True)
    same, paths = True, {}
    for kind in KINDS:
        alike, paths[kind[0]] = compare(bench, address, jobs, kind)
        same = same and alike
    print("\n| Batch by Dask | Lines a part | Parts | Time |\n|---|---|---|---|", flush=True)
    for name, sizes in PARTS:
        line = next(kind[1] for kind in KINDS if kind[0] == name)
        for lines in sizes if paths[name] else ():
            count = paths[name].read_bytes().count(b"\n")
            taken, _ = least(bench, by_dask(bench, address, paths[name], line, lines))
            print(f"| {name} | {lines:,} | {-(-count // lines):,} | {text_of(taken, count)} |", flush=True)
    return 0 if same else 1


if __name__ == "__main__":
    begin(main)
