"""The module as one file of C: compiled and compared with the program, and what is said if it can't be made."""
import subprocess
import sys

import pytest

from support.bench import SECONDS, TOP

SCRIPT = TOP / "library" / "in_c.py"
FAULTS = {  # what stands in the place of wasm2c, and what is said then
    "exit 1": "wasm2c ended with 1",
    "printf '' > \"$5\"; printf '' > \"${5%c}h\"": "wasm2c is of another version",
}


def told(words, **more):
    return subprocess.run(words, capture_output=True, text=True, check=False, timeout=SECONDS, **more)


@pytest.mark.needs("cc", "nm", "wasm2c")
@pytest.mark.timeout(1800)
def test_answers(module, program, tmp_path):
    """all calls as the program answers them, in threads too, with a memory that goes back, and nothing else that is seen"""
    done = told([SCRIPT, module, tmp_path])
    assert done.returncode == 0, done.stderr
    words = [sys.executable, "python/run", "tests/library/library.py", "--as-c", "--puzzles=24", "--calls=1000",
             f"--built={tmp_path}", program]
    done = subprocess.run(words, cwd=TOP, capture_output=True, text=True, check=False, timeout=1800)
    assert done.returncode == 0, done.stdout[-2000:] + done.stderr[-1000:]
    assert done.stdout.splitlines()[-1].endswith(" compared, 0 differ"), done.stdout


def test_faults(tmp_path):
    """no wasm2c, one that fails, one of another version: a sentence, and no file"""
    module, tools = tmp_path / "puzzles.wasm", tmp_path / "tools"
    module.write_bytes(b"\0asm\1\0\0\0")
    tools.mkdir()
    words = [sys.executable, SCRIPT, module, tmp_path / "made"]
    done = told(words, env={"PATH": str(tools)})
    assert (done.returncode, done.stderr) == (1, "in_c.py: needed and not found: wasm2c (Debian's wabt)\n")
    for script, said in FAULTS.items():
        (tools / "wasm2c").write_text(f"#!/bin/sh\n{script}\n")
        (tools / "wasm2c").chmod(0o755)
        done = told(words, env={"PATH": str(tools)})
        assert done.returncode == 1 and said in done.stderr and len(done.stderr.splitlines()) == 1, done.stderr
    assert not (tmp_path / "made").exists()


@pytest.mark.slow
@pytest.mark.needs("aarch64-linux-gnu-gcc", "qemu-aarch64-static", "wasm2c")
def test_another_processor(module, bench):
    """compiled for AArch64 it answers as the program does, of each game and each status"""
    made = bench.folder / "made"
    assert told([SCRIPT, module, made]).returncode == 0
    words = ["aarch64-linux-gnu-gcc", "-O1", "-static", "-o", made / "solve", TOP / "examples/library/solve.c", made / "puzzles.c",
             "-I", made]
    subprocess.run(words, check=True, timeout=1800)
    texts = [(game, bench.generate(game, size, seed)[0]) for game, size in (("solo", "3x3"), ("solo", "2x3x"), ("pattern", "15x15"),
             ("lightup", "10x10"), ("tents", "8x8")) for seed in (1, 2)]
    for game, text in [*texts, ("pattern", "2x2:1/1/1/1"), ("lightup", "2x2:1c"), ("solo", "nonsense"), ("pattern", "2x1:1/1/1")]:
        there, here = (told([*how, game, text]) for how in (["qemu-aarch64-static", made / "solve"], [bench.program, "solve", "--"]))
        assert (there.returncode, there.stdout) == (here.returncode, here.stdout), f"{game} {text}: {there} {here}"
