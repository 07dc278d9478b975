"""Rattle's kit: where its parts lie, and a run of it that keeps what it hands to its compiler. For `build.py` and `edits.py`."""
import os
import pathlib
import shutil
import subprocess

PROVING_SECONDS = 3 * 3600
STEP_SECONDS = 900
SMALL = 1 << 20  # bytes; of the kit's own commands the scripts are smaller, and find the kit by where they lie

# Stands in the place of clang: keeps the module that it is to compile, and has it compiled. A second module is a failure, since
# it isn't known which of them is the library. Where it is to keep that of a certain word alone, it ends there.
KEEPER = """#!/bin/sh
case "$*" in *"{only}"*) ;; *) exec "{clang}" "$@" ;; esac
for word in "$@"; do
    case $word in *.bc) [ ! -e "{kept}" ] || exit 1; cp "$word" "{kept}" ;; esac
done
[ -z "{only}" ] || exit 1
exec "{clang}" "$@"
"""


class Failed(Exception):
    """A step ended without what it was to make."""


def run(words, seconds=STEP_SECONDS, **how):
    """Runs a command to its end, and gives what it wrote."""
    name = os.path.basename(words[0])
    try:
        done = subprocess.run(words, stdin=subprocess.DEVNULL, capture_output=True, check=False, timeout=seconds, **how)
    except subprocess.TimeoutExpired:
        raise Failed(f"{name} took more than {seconds} seconds") from None
    if done.returncode:
        said = (done.stderr or done.stdout).decode(errors="replace").strip()
        raise Failed(f"{name} ended with {done.returncode}: {said[-500:]}")
    return done.stdout


class Kit:
    """The kit of a folder, or the one that `rt` belongs to."""

    def __init__(self, folder):
        if not folder and not shutil.which("rt"):
            raise Failed("needed and not found: rt, or --kit with the kit's folder")
        self.folder = (folder or pathlib.Path(run(["rt", "doc"]).decode().strip()).parent).absolute()
        self.clang, self.heap = self.part("*/bin/clang"), self.part("c/liblibc_c.a")
        self.linker, self.archiver = self.part("*/bin/ld.lld"), self.part("*/bin/llvm-ar")
        self.c_library = self.part("*/lib/libc.so.6")

    def part(self, pattern):
        found = sorted(self.folder.glob(pattern))
        if len(found) != 1:
            raise Failed(f"{len(found)} files {pattern} in the kit {self.folder}, and not one")
        return found[0]

    def linked(self, room, only=""):
        """A copy of the kit by links, but for its scripts and for clang, which keeps its module as module.bc in the room. Where
        a word is given, it keeps that of a call with the word alone, and ends there.
        """
        copy, opened = room / "kit", {self.folder, self.folder / "bin", self.clang.parent.parent, self.clang.parent}
        for folder in sorted(opened):
            below = copy / folder.relative_to(self.folder)
            below.mkdir(parents=True)
            for file in set(folder.iterdir()) - opened - {self.clang}:
                if file.is_file() and not file.is_symlink() and file.stat().st_size < SMALL:
                    shutil.copy2(file, below)
                else:
                    (below / file.name).symlink_to(file)
        keeper = copy / self.clang.relative_to(self.folder)
        keeper.write_text(KEEPER.format(kept=room / "module.bc", clang=self.clang, only=only))
        keeper.chmod(0o755)
        return copy

    def make_library(self, crate, room, jobs, log):
        """Proves and builds a static library. Its module for LLVM is left in the room, and what is said in the log."""
        words = [self.linked(room) / "bin" / "rt", "lib", "--jobs", str(jobs)]
        with open(log, "wb") as said:
            try:
                status = subprocess.run(words, cwd=crate, stdin=subprocess.DEVNULL, stdout=said, stderr=said, check=False,
                                        timeout=PROVING_SECONDS).returncode
            except subprocess.TimeoutExpired:
                raise Failed(f"rt lib took more than {PROVING_SECONDS} seconds") from None
        if status or not (room / "module.bc").exists():
            raise Failed(f"rt lib made no library in {crate}: {log} says why")
