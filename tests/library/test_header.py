"""The calls are the same in all files that say them: what is exported, the header, the Python class, and the module's script."""
import ctypes
import re

from puzzles.library import CALLS, OUTPUT
from support.bench import TOP

EXPORTS, HEADER = (TOP / "crates/puzzles_c/src/calls.rt").read_text(), (TOP / "library/puzzles.h").read_text()
SCRIPT = (TOP / "library/puzzles.js").read_text()
IN_C = {"u8": ["uint8_t {}"], "u32": ["uint32_t {}"], "u64": ["uint64_t {}"], "&[u8]": ["const uint8_t *{}", "size_t {}_length"],
        "&mut [u8]": ["uint8_t *{}", "size_t room"], "&mut usize": ["size_t *{}"]}
IN_PYTHON = {"uint8_t": ctypes.c_uint8, "uint32_t": ctypes.c_uint32, "uint64_t": ctypes.c_uint64, "size_t": ctypes.c_size_t,
             "const uint8_t *": ctypes.c_char_p, "uint8_t *": ctypes.c_char_p, "size_t *": ctypes.POINTER(ctypes.c_size_t)}


def exported():
    """Of each exported call what it gives, and its arguments as C has them."""
    for name, inside, given in re.findall(r'pub extern "C" fn (\w+)\((.*?)\)\s*-> (\w+)', EXPORTS, re.S):
        words = [part.strip().split(": ") for part in inside.split(",\n") if part.strip() and not part.strip().startswith("alloc:")]
        yield name, IN_C[given][0].format("").strip(), [form.format(word) for word, kind in words for form in IN_C[kind]]


def declared():
    """The same of each call that the header declares."""
    for given, name, inside in re.findall(r"^(\w+) (puzzles_\w+)\((.*?)\);", HEADER, re.M | re.S):
        yield name, given, [] if inside == "void" else [" ".join(part.split()) for part in inside.split(",")]


def test_header():
    """the header declares what is exported: the same calls, with the same arguments in the same order"""
    assert sorted(declared()) == sorted(exported()) and len([*declared()]) == 6


def test_python():
    """the class of Python's package passes these arguments"""
    for name, given, arguments in declared():
        if name != "puzzles_version":
            kinds = [IN_PYTHON[re.sub(r"\w+$", "", one).strip()] for one in arguments]
            assert given == "uint8_t" and [*CALLS[name.removeprefix("puzzles_")], *OUTPUT] == kinds, name


def test_version():
    """the version is one number, in the export, the header and the script"""
    found = {re.search(pattern, text, re.S)[1] for pattern, text in (
        (r"fn puzzles_version\(\) -> u32.*?\n\{\s*(\d+)\s*\}", EXPORTS), (r"#define PUZZLES_VERSION (\d+)", HEADER),
        (r"const VERSION = (\d+);", SCRIPT))}
    assert len(found) == 1, found
