"""What the library's file says to the loader: names, versions, and what it needs. For `library.py`.

No script. It needs nm and readelf.
"""
import re
import subprocess

from puzzles.library import CALLS

SECONDS = 60
EXPORTS = {f"puzzles_{name}" for name in [*CALLS, "version"]}
NAME, VERSION, OLDEST_GLIBC = "libpuzzles.so.0", "PUZZLES_0.1", (2, 14)
# What the library takes from the C library and the loader: memory, and no input, output, clock or network.
NEEDED = {"malloc", "realloc", "free", "memcpy", "memmove", "memset", "memcmp",
          "__cxa_finalize", "__gmon_start__", "_ITM_deregisterTMCloneTable", "_ITM_registerTMCloneTable"}
NEEDED_AS_C = NEEDED | {"calloc", "abort"}
# What a loader does before the first call, and what it may not have to do.
FLAGS, NO_ENTRIES = {"BIND_NOW", "NOW"}, {"TEXTREL", "RPATH", "RUNPATH"}


def told(words):
    return subprocess.run(words, capture_output=True, text=True, check=True, timeout=SECONDS).stdout


def names(file, flag):
    """The names of a kind, each with its version; a version itself is none."""
    lines = told(["nm", "-D", flag, file]).splitlines()
    return [line.split()[-1].replace("@@", "@").partition("@") for line in lines if " A " not in line]


def symbols(tally, file, is_c):
    """What the library defines for others, and what it needs. One of C is linked by whoever compiles it."""
    defined, needed = names(file, "--defined-only"), names(file, "--undefined-only")
    tally.same("names that are defined", {name for name, _, _ in defined}, EXPORTS)
    tally.same("names that are needed besides", {name for name, _, _ in needed} - (NEEDED_AS_C if is_c else NEEDED), set())
    if is_c:
        return
    tally.same("versions of what is defined", {version for _, _, version in defined}, {VERSION})
    tally.same("names of its inside", told(["nm", "--defined-only", file]), "")
    numbers = {version: tuple(map(int, version.removeprefix("GLIBC_").split("."))) for _, _, version in needed if version}
    tally.same("a newer glibc", {version for version, number in numbers.items() if number > OLDEST_GLIBC}, set())
    entries = told(["readelf", "-dW", file])
    tally.same("the name of the library", re.findall(r"soname: \[(.*)\]", entries), [NAME])
    tally.same("libraries that it needs", re.findall(r"Shared library: \[(.*)\]", entries), ["libc.so.6"])
    flags = set(" ".join(re.findall(r"\(FLAGS(?:_1)?\) *(?:Flags: )?(.*)", entries)).split())
    tally.same("flags of the loader", FLAGS - flags, set())
    tally.same("entries of the loader", NO_ENTRIES & set(re.findall(r"\((\w+)\)", entries)), set())
    parts = {words[0]: words[6:-1] for words in map(str.split, told(["readelf", "-lW", file]).splitlines()) if len(words) > 7}
    tally.same("a stack that isn't run", parts.get("GNU_STACK"), ["RW"])
    tally.same("a part that is closed to writing", "GNU_RELRO" in parts, True)
