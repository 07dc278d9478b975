#!/usr/bin/env python3
"""Makes one file of C of the module for browsers, by wasm2c: for phones, and for processors that have no library.

usage: library/in_c.py MODULE FOLDER     MODULE is puzzles.wasm, as library/build.py makes it; needs wasm2c (Debian's wabt)

FOLDER gets puzzles.c, which has the calls of puzzles.h, and puzzles.h. Any compiler of C99 takes them. The status is 0, and 1 if
a file can't be read or written, or if wasm2c fails or is of a version that names things in another way.
"""
import argparse
import pathlib
import re
import shutil
import sys
import tempfile

from kit import Failed, run

HERE = pathlib.Path(__file__).resolve().parent
OURS = re.compile(r"(?m)^(?=(?:u32|u64|void|wasm_rt_memory_t\*) Z_puzzles)")
# What is left out of what wasm2c wrote: files that aren't everywhere, and what is of fractions and of tables, which the module
# has not. Each stands there once.
LEFT_OUT = [r'#include "module\.h"\n', r"#include <alloca\.h>\n", r"#include <math\.h>\n",
            r"static float quiet_nanf\((?s:.*?)(?=static inline void memory_fill\()",
            r"typedef struct \{\n  uint32_t func_type_index;(?s:.*?)(?=static bool s_module_initialized )"]
HEAD = "// The module of puzzles as C, by wasm2c. Compile it with puzzles.h beside it: cc -O2 -c puzzles.c\n"


def in_one(header, source):
    """The file: what wasm2c asks for, its header, the module, and the calls. No name but those of puzzles.h is seen outside."""
    for part in LEFT_OUT:
        source, found = re.subn(part, "", source)
        if found != 1:
            raise Failed(f"wasm2c is of another version: {found} parts {part}, and not one")
    if "Z_puzzles_instantiate(Z_puzzles_instance_t*);" not in header:
        raise Failed("wasm2c is of another version: it has no Z_puzzles_instantiate")
    header = header.replace('#include "wasm-rt.h"\n', "")
    own = [(HERE / "in_c" / name).read_text() for name in ("runtime.h", "calls.c")]
    return "\n".join([HEAD + own[0], OURS.sub("static ", header), OURS.sub("static ", source), own[1]])


def build_c(module, room):
    """puzzles.c in the room, of a module."""
    made = room / "module.c"
    try:
        run(["wasm2c", "-n", "puzzles", module, "-o", made])
    except FileNotFoundError:
        raise Failed("needed and not found: wasm2c (Debian's wabt)") from None
    one = room / "puzzles.c"
    one.write_text(in_one(made.with_suffix(".h").read_text(), made.read_text()))
    return one


def main():
    form = argparse.ArgumentParser(description=__doc__, formatter_class=argparse.RawDescriptionHelpFormatter)
    form.add_argument("module", type=pathlib.Path, metavar="MODULE")
    form.add_argument("folder", type=pathlib.Path, metavar="FOLDER")
    asked = form.parse_args()
    try:
        with tempfile.TemporaryDirectory(prefix="puzzles-c-") as room:
            made = build_c(asked.module.absolute(), pathlib.Path(room))
            asked.folder.mkdir(parents=True, exist_ok=True)
            for file in (made, HERE / "puzzles.h"):
                shutil.copyfile(file, asked.folder / file.name)
    except (Failed, OSError) as fault:
        sys.exit(f"in_c.py: {fault}")


if __name__ == "__main__":
    main()
