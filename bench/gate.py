#!/usr/bin/env python3
"""What the gate costs: runs .ci/run at the top of the repository and prints processor minutes by crate.

With names of crates it runs `rt ci` for these and those below them alone.

It needs Linux, and the kit on the path. Its own output goes to standard error, the gate's to standard output.
Each second it reads the processor time of the gate's own provers from /proc. What a process uses in its last second
is lost, so a sum is some percent low. A crate's part is its proof, its tests, or its wrong bodies.
"""
import argparse
import os
import subprocess
import sys
import time

TICKS = os.sysconf("SC_CLK_TCK")
PARTS = ("proof", "tests", "wrong bodies")
GATE_HOURS = 12


def part_of(words, folder):
    if "/rt-edit-" in folder:
        return "wrong bodies"
    return "tests" if "--test" in words else "proof"


def stat_of(name):
    """What the system says of a process, after its name: its state, the process that it comes of, and so on."""
    with open(f"/proc/{name}/stat") as file:
        return file.read().rpartition(")")[2].split()


def below(process):
    """The processes that come of this one."""
    children, found = {}, [str(process)]
    for name in filter(str.isdigit, os.listdir("/proc")):
        try:
            children.setdefault(stat_of(name)[1], []).append(name)
        except OSError:  # it has ended
            continue
    for name in found:
        found += children.get(name, [])
    return found


def sample(seen, gate):
    """Notes of each prover's process its crate, its part and its processor seconds so far."""
    for name in below(gate):
        try:
            with open(f"/proc/{name}/cmdline", "rb") as file:
                words = file.read().decode(errors="replace").split("\0")
            if "--crate-name" not in words:
                continue
            fields = stat_of(name)
            part = part_of(words, os.readlink(f"/proc/{name}/cwd"))
        except OSError:  # it has ended
            continue
        crate = words[words.index("--crate-name") + 1]
        used = (int(fields[11]) + int(fields[12])) / TICKS
        seen[name, fields[19]] = (crate, part, used)


def main():
    parser = argparse.ArgumentParser(description=__doc__, formatter_class=argparse.RawDescriptionHelpFormatter)
    parser.add_argument("crates", nargs="*", metavar="CRATE")
    crates = parser.parse_args().crates
    top = os.path.dirname(os.path.dirname(os.path.abspath(__file__)))
    start, seen = time.time(), {}
    gate = subprocess.Popen(["rt", "ci", *crates] if crates else ["bash", f"{top}/.ci/run"], cwd=top)
    while gate.poll() is None:
        sample(seen, gate.pid)
        time.sleep(1)
        if time.time() - start > GATE_HOURS * 3600:
            gate.terminate()
            sys.exit(f"gate.py: no end within {GATE_HOURS} hours")
    sums = {}
    for crate, part, used in seen.values():
        sums[crate, part] = sums.get((crate, part), 0) + used / 60
    print("| Crate | Proof | Tests | Wrong bodies |\n|---|---|---|---|", file=sys.stderr)
    for crate in sorted({crate for crate, _ in sums}):
        row = " | ".join(f"{sums.get((crate, part), 0):.1f}" for part in PARTS)
        print(f"| `{crate}` | {row} |", file=sys.stderr)
    wall = (time.time() - start) / 60
    print(f"{sum(sums.values()):.0f} processor minutes, {wall:.0f} of wall time", file=sys.stderr)
    sys.exit(gate.returncode)


if __name__ == "__main__":
    main()
