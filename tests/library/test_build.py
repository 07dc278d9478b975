"""`library/build.py` with a kit whose `rt lib` hands over a library that was made up: what is linked, and of what."""
import json
import os
import pathlib
import re
import shutil
import subprocess
import sys

import pytest

from support import library_file
from support.bench import SECONDS, TOP

pytestmark = pytest.mark.needs("rt", "objcopy", "nm", "readelf", "wasm-opt", "wasm2c", "node", "cc")
# Solving takes memory, and answers with the first byte of the ID.
MADE_UP = """
typedef unsigned char u8;
typedef unsigned long u64;
typedef struct { u64 is_taken; u8 *place; } Taken;
Taken rattle_alloc(u64 size, u64 alignment);
void rattle_dealloc(u8 *place);
u8 puzzles_solve(u8 game, const u8 *id, u64 length, u64 budget, u8 *output, u64 room, u64 *written) {
    Taken taken = rattle_alloc(length, 1);
    if (!taken.is_taken || !room) return 5;
    *taken.place = *id;
    *output = *taken.place;
    rattle_dealloc(taken.place);
    *written = 1;
    return game + (budget != 7);
}
u8 puzzles_solve_each(u8 a, u8 *b, u64 c, u64 d, u8 *e, u64 f, u64 *g) { return 2; }
u8 puzzles_check(u8 a, u8 *b, u64 c, u8 *d, u64 e, u8 *f, u64 g, u64 *h) { return 2; }
u8 puzzles_grade(u8 a, u8 *b, u64 c, u64 d, u8 e, u8 *f, u64 g, u64 *h) { return 2; }
u8 puzzles_generate(u8 a, u8 *b, u64 c, u64 d, u64 e, unsigned f, u8 g, u8 *h, u64 i, u64 *j) { return 2; }
unsigned puzzles_version(void) { return 1; }
"""
RT = """#!/bin/sh
[ -d out ] || mkdir out
for clang in "$(dirname "$0")"/../toolchain/bin/clang; do for round in {rounds}; do
    "$clang" -c -fPIC -x ir {made}/library.bc -o out/library.o || exit 1
done; done
rm -f out/libpuzzles_c.a
{archiver} rcsD out/libpuzzles_c.a out/library.o
"""
CALLER = """
#include <puzzles.h>
#include <stdio.h>
int main(void) {
    uint8_t output[9] = {0};
    size_t written;
    uint8_t status = puzzles_solve(1, (const uint8_t *)"hello", 5, 7, output, 9, &written);
    printf("%u %s %u\\n", status, output, puzzles_version());
}
"""
IN_NODE = """
import { readFileSync } from "node:fs";
import { Puzzles } from "./npm/puzzles.js";
console.log(JSON.stringify((await Puzzles.load(readFileSync("puzzles.wasm"))).solve("pattern", "hello", { budget: 7 })));
"""


class Tally:
    def same(self, what, found, wanted):
        assert found == wanted, what


def run(words, status=0, **more):
    done = subprocess.run(words, capture_output=True, text=True, check=False, timeout=SECONDS, **more)
    assert done.returncode == status, done.stdout + done.stderr
    return done.stdout + done.stderr


@pytest.fixture(scope="module")
def kit():
    return pathlib.Path(run(["rt", "doc"]).strip()).parent


def tree(folder, kit, rounds):
    """A copy of what build.py reads, and a kit like this one, whose `rt` compiles the library that was made up."""
    made, words = folder / "kit", ["-fPIC", "-O1", "-Wno-everything"]
    shutil.copytree(TOP / "library", folder / "library", ignore=shutil.ignore_patterns("out", "__pycache__"))
    shutil.copy(TOP / "CHANGELOG.md", folder)
    (folder / "crates" / "puzzles_c").mkdir(parents=True)
    (made / "bin").mkdir(parents=True)
    for name in ("toolchain", "c"):
        (made / name).symlink_to(kit / name)
    (folder / "library.c").write_text(MADE_UP)
    clang = kit / "toolchain" / "bin" / "clang"
    run([clang, *words, "-S", "-emit-llvm", folder / "library.c", "-o", folder / "library.ll"])
    told = (folder / "library.ll").read_text()
    (folder / "library.ll").write_text(re.sub(r' "(?:target-features|tune-cpu)"="[^"]*"', "", told))
    run([clang, "-c", "-emit-llvm", "-x", "ir", folder / "library.ll", "-o", folder / "library.bc"])
    (made / "bin" / "rt").write_text(RT.format(made=folder, rounds=rounds, archiver=kit / "toolchain" / "bin" / "llvm-ar"))
    (made / "bin" / "rt").chmod(0o755)
    return [sys.executable, folder / "library" / "build.py", "--kit", made, "--to", folder / "out"]


def test_all(tmp_path, kit):
    """a library whose file is as it has to be, static ones, the module for npm, and one file of C: all answer alike, without a
    compiler or a linker of the machine, and are the same bytes of another folder"""
    tools = tmp_path / "tools"
    tools.mkdir()
    for name in ("objcopy", "wasm-opt", "wasm2c", "dirname", "mkdir", "rm", "sh", "cp"):
        (tools / name).symlink_to(shutil.which(name))
    outs = []
    for name in ("one", "another"):
        (tmp_path / name).mkdir()
        said = run([*tree(tmp_path / name, kit, "1"), "so", "wasm", "c"], env={"PATH": str(tools)})
        assert re.search(r"^wasm-opt version \d+", said, re.M), said
        outs.append(tmp_path / name / "out")
    for file in [path for path in outs[0].rglob("*") if path.is_file() and path.name != "build.log"]:
        assert file.read_bytes() == (outs[1] / file.relative_to(outs[0])).read_bytes(), file
    library_file.symbols(Tally(), outs[0] / "libpuzzles.so.0", False)
    (outs[0] / "caller.c").write_text(CALLER)
    for name, words in {"shared": ["-L.", "-lpuzzles"], "static": ["-static", "libpuzzles.a"], "c": ["puzzles.c"]}.items():
        run(["cc", "-o", name, "caller.c", "-I.", *words], cwd=outs[0])
        assert run([f"./{name}"], cwd=outs[0], env={**os.environ, "LD_LIBRARY_PATH": "."}) == "1 h 1\n", name
    (outs[0] / "used.mjs").write_text(IN_NODE)
    assert json.loads(run(["node", "used.mjs"], cwd=outs[0])) == {"status": 1, "text": "h"}


def test_two_modules(tmp_path, kit):
    """a second module is refused, since it isn't known which one is the library"""
    said = run(tree(tmp_path, kit, "1 2"), 1)
    assert "rt lib made no library" in said and not list((tmp_path / "out").glob("lib*")), said
