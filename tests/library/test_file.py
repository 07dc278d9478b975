"""What `library_file` says of a library: nothing of a right one, and each fault of a wrong one."""
import subprocess

import pytest

from support import library_file

pytestmark = pytest.mark.needs("cc", "nm", "readelf")
CALLS = "void *malloc(unsigned long);\nvoid *memory(void) { return malloc(1); }\n" + "\n".join(
    f"int {name}(void) {{ return 0; }}" for name in sorted(library_file.EXPORTS))
SCRIPT = "{} {{ global: puzzles_*; local: *; }};\n"
RIGHT = ["-Wl,-soname,libpuzzles.so.0", "-Wl,-z,now", "-Wl,-z,noexecstack", "-s"]
WRONG = [
    ("another name", {"flags": ["-Wl,-soname,libpuzzles.so", *RIGHT[1:]]}, "the name of the library"),
    ("another version", {"version": "PUZZLES_1.0"}, "versions of what is defined"),
    ("a name too many", {"more": "int puzzles_more(void) { return 0; }"}, "names that are defined"),
    ("a call that writes", {"more": "int puts(const char *); void *said = &puts;"}, "names that are needed besides"),
    ("a newer glibc", {"more": 'int poll(void); __asm__(".symver poll,memfd_create@GLIBC_2.27"); void *it = &poll;'},
     "a newer glibc"),
    ("names of its inside", {"flags": RIGHT[:3]}, "names of its inside"),
    ("names that are found late", {"flags": [RIGHT[0], "-Wl,-z,lazy", *RIGHT[2:]]}, "flags of the loader"),
    ("a path of its own", {"flags": [*RIGHT, "-Wl,-rpath,/tmp"]}, "entries of the loader"),
    ("another library", {"flags": [*RIGHT, "-Wl,--no-as-needed", "-lm"]}, "libraries that it needs"),
    ("a stack that is run", {"flags": [*RIGHT[:2], "-Wl,-z,execstack", "-s"]}, "a stack that isn't run"),
    ("all open to writing", {"flags": [*RIGHT, "-Wl,-z,norelro"]}, "a part that is closed to writing"),
]


class Tally:
    def __init__(self):
        self.differing = []

    def same(self, what, found, wanted):
        if found != wanted:
            self.differing.append(what)


def differing(folder, more="", version=library_file.VERSION, flags=RIGHT):
    """What is said of a library of calls that do nothing."""
    source, exports, made = folder / "calls.c", folder / "exports", folder / "libpuzzles.so"
    source.write_text(f"{CALLS}\n{more}\n")
    exports.write_text(SCRIPT.format(version))
    words = ["cc", "-shared", "-fPIC", "-w", "-o", made, source, f"-Wl,--version-script={exports}", *flags]
    subprocess.run(words, check=True, timeout=library_file.SECONDS)
    tally = Tally()
    library_file.symbols(tally, made, False)
    return tally.differing


def test_right(tmp_path):
    """a library as it is to be"""
    assert not differing(tmp_path)


@pytest.mark.parametrize("what, how, said", WRONG, ids=[what.replace(" ", "-") for what, _, _ in WRONG])
def test_wrong(tmp_path, what, how, said):
    """a library with one fault"""
    assert said in differing(tmp_path, **how), what
