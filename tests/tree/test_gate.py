"""The gate: a part that doesn't end is ended with all that it began, and the last line adds up."""
import os
import pathlib
import subprocess
import sys

import pytest

from support.bench import SECONDS, TOP

CI = TOP / ".ci"
SPINS = 'setsid sh -c "echo \\$\\$ > left; exec sleep 100000" & while :; do :; done'


def part(folder, seconds, *words):
    """The status of a part, and what is told of it."""
    done = subprocess.run([sys.executable, CI / "part.py", str(seconds), folder / "log", *words], cwd=folder, text=True,
                          stdout=subprocess.PIPE, timeout=SECONDS, check=False)
    return done.returncode, done.stdout.strip().split(" ", 2)[2:]


def test_a_part_without_end(tmp_path):
    """Its bound is of the processor, and what it began in a session of its own ends with it."""
    status, why = part(tmp_path, 2, "sh", "-c", SPINS)
    assert status == 124 and why == ["no end within 2.0 seconds of the processor"]
    assert not pathlib.Path(f"/proc/{int((tmp_path / 'left').read_text())}").exists()


@pytest.mark.parametrize("line, wanted", [("exit 0", 0), ("exit 3", 3), ("kill -9 $$", 137), ("setsid sleep 100000 & exit 1", 1)])
def test_a_part_that_ends(tmp_path, line, wanted):
    assert part(tmp_path, 600, "sh", "-c", line) == (wanted, [])


def test_a_part_that_lacks_its_program(tmp_path):
    """It is skipped by name, and counts."""
    log = tmp_path / "log"
    log.write_text("187 passed, 0 failed\n")
    done = subprocess.run([sys.executable, CI / "around.py", "0", log, "tsc"], text=True, stdout=subprocess.PIPE, check=False,
                          timeout=SECONDS, env={**os.environ, "CI": "", "TMPDIR": str(tmp_path), "PATH": str(tmp_path)})
    *_, skipped, last = done.stdout.splitlines()
    assert (skipped, last) == ("gate: skipped, no tsc 4.8: 1: tsc", "187 passed, 0 failed, 1 skipped")


@pytest.mark.parametrize("status, said, wanted", [
    (0, "187 passed, 0 failed", (0, "187 passed, 0 failed, 0 skipped")),
    (1, "186 passed, 1 failed", (1, "186 passed, 1 failed, 1 skipped")),
    (1, "187 passed, 0 failed", (1, "187 passed, 1 failed, 1 skipped")),
    (127, "rt: not found", (1, "0 passed, 1 failed, 1 skipped"))])
def test_the_last_line(tmp_path, status, said, wanted):
    """What `rt ci` said is added up, and where it failed nothing else is tried."""
    log = tmp_path / "log"
    log.write_text(f"1 passed, 1 failed\n{said}\n" if wanted[0] == 0 else f"{said}\n")
    only = ["no such part"] if status == 0 else []
    done = subprocess.run([sys.executable, CI / "around.py", str(status), log, *only], text=True, stdout=subprocess.PIPE,
                          timeout=SECONDS, env={**os.environ, "CI": "", "TMPDIR": str(tmp_path)}, check=False)
    assert (done.returncode, done.stdout.splitlines()[-1]) == wanted
