#!/usr/bin/env python3
"""Proves the library for C and builds it: for any process, for browsers, and for other processors.

usage: library/build.py [--to FOLDER] [--kit KIT] [--jobs N] [so] [wasm] [c]

so      libpuzzles.so.0, the link libpuzzles.so to it, libpuzzles.a, libpuzzles_c.a, puzzles.h; needs objcopy
wasm    puzzles.wasm and puzzles.js, and both in the folder npm, for npm; needs wasm-opt (Debian's binaryen)
c       puzzles.c and puzzles.h: the module as one file of C, by in_c.py; needs wasm2c (Debian's wabt) besides

Without a word it makes the first two. FOLDER is library/out unless it is said, and a file gets its name there once it is whole.
KIT is the folder of Rattle's kit, and else the one that `rt doc` names.

All come of one run of `rt lib` in crates/puzzles_c, which proves what isn't proved here. From nothing that takes what a first
build of the program takes (bench/README.md). The module is what this run hands to the kit's clang, compiled for WebAssembly:
Rattle itself makes no module that takes memory. The kit's linker links all, so that another machine makes the same bytes if it
has the same wasm-opt, whose version is told.
The status is 0 if all is made, 1 if a step fails, and 2 if something is missing.
"""
import argparse
import os
import pathlib
import re
import shutil
import sys
import tempfile

from in_c import build_c
from kit import Failed, Kit, run
from module import build_module
from npm_folder import fill

HERE = pathlib.Path(__file__).resolve().parent
CRATE = HERE.parent / "crates" / "puzzles_c"
TOOLS = {"so": ["objcopy"], "wasm": ["wasm-opt"], "c": ["wasm-opt", "wasm2c"]}
USUAL = ["so", "wasm"]
EXPORTS = "PUZZLES_{}.{} {{ global: puzzles_*; local: *; }};\n"
LINK = "libpuzzles.so"
SAFE = [word for flag in ("defs", "now", "relro", "noexecstack", "separate-code") for word in ("-z", flag)]


def version():
    """The two parts of the version that the header has."""
    number = int(re.search(r"(?m)^#define PUZZLES_VERSION (\d+)$", (HERE / "puzzles.h").read_text())[1])
    return divmod(number, 100)


def build_shared(kit, archive, room):
    """The shared library of the proved one and of the kit's calls for memory. Nothing but the calls is exported."""
    first, second = version()
    exports, made = room / "exports", room / f"{LINK}.{first}"
    exports.write_text(EXPORTS.format(first, second))
    run([kit.linker, "-shared", "-o", made, "--whole-archive", archive, "--no-whole-archive", kit.heap, kit.c_library,
         "-soname", made.name, "--gc-sections", "--strip-all", *SAFE, "--build-id=sha1", "--hash-style=gnu", "--eh-frame-hdr",
         f"--version-script={exports}"])
    return [made, build_static(kit, archive, room), archive, HERE / "puzzles.h"]


def build_static(kit, archive, room):
    """The same in an archive that needs nothing but the C library, and whose one object has no other names."""
    whole, made = room / "puzzles.o", room / "libpuzzles.a"
    run([kit.linker, "-r", "-o", whole, "--whole-archive", archive, "--no-whole-archive", kit.heap])
    run(["objcopy", "--wildcard", "--keep-global-symbol=puzzles_*", whole])
    made.unlink(missing_ok=True)
    run([kit.archiver, "rcsD", made, whole])
    return made


def hand_over(file, folder):
    """Puts a file into a folder, whole or not at all."""
    part = folder / f".{file.name}.part"
    shutil.copyfile(file, part)
    os.replace(part, folder / file.name)
    print(f"{folder / file.name}: {(folder / file.name).stat().st_size:,} bytes", flush=True)


def link_to(file, folder):
    """The name by which a linker finds the library of a folder."""
    part = folder / f".{LINK}.part"
    part.unlink(missing_ok=True)
    part.symlink_to(file.name)
    os.replace(part, folder / LINK)


def build(asked, room):
    kit = Kit(asked.kit)
    print(f"proves and builds {CRATE.name}; what `rt` says goes to {asked.to}/build.log", file=sys.stderr)
    kit.make_library(CRATE, room, asked.jobs, asked.to / "build.log")
    made = build_shared(kit, CRATE / "out" / "libpuzzles_c.a", room) if "so" in asked.parts else []
    module = build_module(kit, room) if {"wasm", "c"} & set(asked.parts) else None
    if module:
        print(run(["wasm-opt", "--version"]).decode().strip(), flush=True)
    if "wasm" in asked.parts:
        made += [module, HERE / "puzzles.js"]
    if "c" in asked.parts:
        made += [build_c(module, room), HERE / "puzzles.h"]
    for file in dict.fromkeys(made):
        hand_over(file, asked.to)
    if "so" in asked.parts:
        link_to(made[0], asked.to)
    if "wasm" in asked.parts:
        fill(asked.to / "puzzles.wasm", asked.to / "npm")


def main():
    form = argparse.ArgumentParser(description=__doc__, formatter_class=argparse.RawDescriptionHelpFormatter)
    form.add_argument("--to", metavar="FOLDER", type=pathlib.Path, default=HERE / "out")
    form.add_argument("--kit", metavar="KIT", type=pathlib.Path)
    form.add_argument("--jobs", metavar="N", type=int, default=2)
    form.add_argument("parts", nargs="*", metavar="so, wasm, c")
    asked = form.parse_args()
    asked.parts, asked.to = asked.parts or USUAL, asked.to.absolute()
    if unknown := set(asked.parts) - set(TOOLS):
        form.error(f"no part of the library: {', '.join(sorted(unknown))}")
    missing = [tool for part in asked.parts for tool in TOOLS[part] if not shutil.which(tool)]
    if missing:
        form.error(f"needed and not found: {', '.join(missing)}")
    try:
        asked.to.mkdir(parents=True, exist_ok=True)
        with tempfile.TemporaryDirectory(prefix="puzzles-library-") as room:
            build(asked, pathlib.Path(room))
    except (Failed, OSError) as fault:
        sys.exit(f"build.py: {fault}")
    except KeyboardInterrupt:
        sys.exit(130)


if __name__ == "__main__":
    main()
