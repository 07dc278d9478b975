#!/usr/bin/env python3
"""Writes the tables of bench/README.md anew, all with one program on this machine, that of grades of docs/USE.md too, and the
minutes of docs/CONTRIBUTING.md.

A line `<!-- COMMAND -->` of the two, with a script of this folder and its words, begins a part, and `<!-- end -->` ends
it. What the command prints takes the place of the lines between. PROGRAM stands for the program, and `machine` for what is
measured on. With --gate LOG, what gate.py wrote to standard error, the table of the gate is written too, or without a PROGRAM it
alone. A gate that was run in parts, some crates each, has a LOG for each part: the table has their sums.
docs/CONTRIBUTING.md has the sums of that table: a change is proved with all crates that stand on it (crates.txt).

It takes some 20 minutes, most of them of one core. Nothing is asserted.
"""
import argparse
import datetime
import hashlib
import os
import pathlib
import re
import subprocess
import sys

from support import words
from puzzles._work import begin

TOP = pathlib.Path(__file__).resolve().parent.parent
FIGURES, FRONT, CHANGES = TOP / "bench" / "README.md", TOP / "docs" / "USE.md", TOP / "docs" / "CONTRIBUTING.md"
PART = re.compile(r"(?ms)^<!-- (.*?) -->\n(.*?)^<!-- end -->$")
HEAD = "| Crate | Proof | Tests | Wrong bodies | Their number |\n|---|---|---|---|---|\n"
COMMAND_SECONDS = 1800
OF_LIBRARY = "library.py"  # whose table is written where it is named alone, since it wants the built library


def wrapped(text):
    """Lines of at most 130 columns."""
    lines = [""]
    for word in text.split():
        lines[-1:] = [f"{lines[-1]} {word}".strip()] if len(lines[-1]) + len(word) < 130 else [lines[-1], word]
    return "\n".join(lines)


def machine():
    """What is measured on."""
    model = re.search(r"model name\s*: (.*)", pathlib.Path("/proc/cpuinfo").read_text())
    memory = os.sysconf("SC_PAGE_SIZE") * os.sysconf("SC_PHYS_PAGES") / 2**30
    kind = model[1] if model else "of an unknown kind"
    return f"Measured on {datetime.date.today():%-d %B %Y}: {os.cpu_count()} cores ({kind}), {memory:.0f} GB."


def kit():
    """The kit that proves here, as it names itself."""
    told = subprocess.run(["rt", "version"], stdout=subprocess.PIPE, text=True, check=True, timeout=COMMAND_SECONDS)
    return told.stdout.split()[0]


def machine_with(program):
    """The same, and with which program."""
    digest = hashlib.sha256(pathlib.Path(program).read_bytes()).hexdigest()
    return wrapped(f"{machine()} When this began, {os.getloadavg()[0]:.1f} processes were running. The program's sha256 begins "
                   f"with `{digest[:16]}`.") + "\n"


def printed(command, program):
    """What the command of a part prints."""
    if command == "machine":
        return machine_with(program)
    name, *more = [program if word == "PROGRAM" else word for word in command.split()]
    print(f"{command} ..", file=sys.stderr, flush=True)
    done = subprocess.run([TOP / "bench" / name, *more], stdout=subprocess.PIPE, text=True, check=True, timeout=COMMAND_SECONDS)
    return f"\n{done.stdout.strip()}\n\n"


def minutes(text):
    """Of each crate the minutes of its proof, its tests and its wrong bodies, by the table of the gate in a text."""
    sums = {}
    for crate, *cells in re.findall(r"^\| `(\w+)` \| ([\d.]+|-) \| ([\d.]+|-) \| ([\d.]+|-) \|", text, re.M):
        parts = [0.0 if cell == "-" else float(cell) for cell in cells]
        sums[crate] = [old + new for old, new in zip(sums.get(crate, [0.0] * len(parts)), parts)]
    return sums


def crates_below():
    """Of each crate those that it stands on."""
    lines = (TOP / "crates.txt").read_text().splitlines()
    return {kind.split()[0]: more.split() for kind, _, more in (line.partition(":") for line in lines) if kind}


def gate_table(log):
    """The table of the gate, by what gate.py wrote."""
    by_crate, lines = minutes(log), []
    order = list(crates_below())
    if set(by_crate) != set(order):
        raise OSError(f"the log isn't of the whole gate: {', '.join(sorted(set(order) ^ set(by_crate)))}")
    bodies = {crate: len([*(TOP / "crates" / crate).glob("must-fail/*.edit")]) for crate in order}
    for crate in order:
        cells = " | ".join(f"{part:.1f}" if part else "-" for part in by_crate[crate])
        lines.append(f"| `{crate}` | {cells} | {bodies[crate]} |\n")
    sums = [sum(parts) for parts in zip(*by_crate.values())]
    lines.append(f"| all, {sum(sums):.0f} | " + " | ".join(f"{part:.0f}" for part in sums) + f" | {sum(bodies.values())} |\n")
    return f"{wrapped(f'{machine()} The kit is {kit()}.')}\n\n{HEAD}{''.join(lines)}\n"


def above(crate, below):
    """The crate and those that stand on it."""
    return {crate} | {other for each in below if crate in below[each] for other in above(each, below)}


def told_minutes(line, by_crate, below):
    """A row of docs/CONTRIBUTING.md with its minutes by the table of the gate."""
    cells = line.split(" | ")
    groups = [re.findall(r"`(\w+)`", group) for group in cells[0].split(";")]
    cells[-1] = "; ".join(f"{sum(sum(by_crate[each]) for each in above(crates[0], below)):.0f}" for crates in groups) + " |"
    return " | ".join(cells)


def with_minutes(text, figures):
    """docs/CONTRIBUTING.md with the minutes that the table of the gate gives."""
    by_crate = minutes(figures)
    below = crates_below()
    before, head, rest = text.partition("| Processor minutes |\n|---|---|---|\n")
    rows, end, after = rest.partition("\n\n")
    return before + head + "\n".join(told_minutes(line, by_crate, below) for line in rows.splitlines()) + end + after


def check():
    """Tells of minutes in docs/CONTRIBUTING.md that aren't the sums of the gate's table."""
    if CHANGES.read_text() == with_minutes(CHANGES.read_text(), FIGURES.read_text()):
        return 0
    print("docs/CONTRIBUTING.md: minutes that aren't the sums of the gate's table: bench/tables.py --gate LOG writes them")
    return 1


def main():
    form = argparse.ArgumentParser(description=__doc__, formatter_class=argparse.RawDescriptionHelpFormatter)
    form.add_argument("--gate", metavar="LOG", type=argparse.FileType(), action="append",
                      help="what gate.py wrote to standard error; one for each part of a gate that was run in parts")
    form.add_argument("--check", action="store_true", help="only tell whether docs/CONTRIBUTING.md has the sums of the gate's table")
    form.add_argument("program", metavar="PROGRAM", nargs="?", type=words.program,
                      help="as `rt run` leaves it: crates/puzzles/out/puzzles")
    form.add_argument("parts", metavar="SCRIPT", nargs="*",
                      help="the tables of these alone, as made.py; `machine` is one too, and library.py has to be named")
    asked = form.parse_args()
    if asked.check:
        return check()
    if not (asked.program or asked.gate):
        form.error("neither a program nor what gate.py wrote")
    for path, command in [(path, command) for path in (FIGURES, FRONT) for command, _ in PART.findall(path.read_text())]:
        name = command.split()[0]
        is_asked = name in asked.parts if asked.parts else name != OF_LIBRARY
        if asked.gate if command == "gate.py" else asked.program and is_asked:
            new = gate_table("".join(log.read() for log in asked.gate)) if command == "gate.py" else printed(command, asked.program)
            part = f"<!-- {command} -->\n{new}<!-- end -->"
            path.write_text(PART.sub(lambda old: part if old[1] == command else old[0], path.read_text()))
    CHANGES.write_text(with_minutes(CHANGES.read_text(), FIGURES.read_text()))


if __name__ == "__main__":
    begin(main)
