"""The example `limited`: calls of the library with a heap and a clock of their own answer as those without, and end in time."""
import subprocess

import pytest

from support.bench import SECONDS, TOP

SIZES = {"solo": "3x3", "pattern": "10x10", "lightup": "10x10", "tents": "8x8"}
COUNT = 12  # puzzles of each game


@pytest.mark.needs("cc")
def test_limited(bench, library):
    """made puzzles and refused texts have the same answers; 160 endless calls on eight threads are ended, most of them in time by
    their processor, and no memory is kept; a call that wants more memory than it may have tells so"""
    archive = library.resolve().parent / "libpuzzles_c.a"
    if not archive.is_file():
        pytest.skip("no built libpuzzles_c.a")
    caller, example = bench.folder / "limited", TOP / "examples" / "library"
    words = ["cc", "-O2", "-Wall", "-Wextra", "-Werror", "-o", caller, TOP / "tests" / "library" / "limited_try.c",
             example / "limited.c", "-I", TOP / "library", "-I", example, archive, "-lpthread"]
    subprocess.run(words, check=True, timeout=SECONDS)
    given = [f"{number} {text}\n" for number, (game, size) in enumerate(SIZES.items())
             for text in [*(bench.generate(game, size, seed)[0] for seed in range(1, COUNT + 1)), "nonsense", "2x2:p",
                          "z" * 70_000]]
    done = subprocess.run([caller], input="".join(given), capture_output=True, text=True, check=False, timeout=SECONDS)
    assert done.returncode == 0, done.stdout + done.stderr
    assert done.stdout.startswith(f"{2 * len(given)} calls with limits, 0 differ\n"), done.stdout
