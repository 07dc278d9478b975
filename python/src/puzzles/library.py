"""Calls libpuzzles.so by ctypes: `Puzzles(FILE).solve("solo", b"2x2:p")` gives the program's status and text.

It imports nothing of this package, so that a process which has it alone begins at once.
"""
import ctypes
import os
import sys
import threading
from typing import Any, Optional, Tuple, Union

GAMES = ("solo", "pattern", "lightup", "tents")
BLACK = {"pattern": 50, "lightup": 20}  # per cent, as the program has it
NO_MEMORY, TOO_SMALL = 5, 7
REFUSED = (2, b"refused: words\n")
FIRST_ROOM = 80_057  # the most bytes of an answer, but for many lines and for a trace
Answer = Tuple[int, bytes]

TEXT, BYTE, WORD = (ctypes.c_char_p, ctypes.c_size_t), ctypes.c_uint8, ctypes.c_uint64
OUTPUT = (ctypes.c_char_p, ctypes.c_size_t, ctypes.POINTER(ctypes.c_size_t))
CALLS = {
    "solve": (BYTE, *TEXT, WORD), "solve_each": (BYTE, *TEXT, WORD), "check": (BYTE, *TEXT, *TEXT),
    "grade": (BYTE, *TEXT, WORD, BYTE), "generate": (BYTE, *TEXT, WORD, WORD, ctypes.c_uint32, BYTE),
}


def is_number(value: int, kind: Any) -> bool:
    return 0 <= value < 1 << 8 * ctypes.sizeof(kind)


class Puzzles:
    """The library. Each call gives the program's status and what it writes; with status 5, for want of memory, nothing.
    Texts are bytes. May be used by many threads: each has a room of its own for answers."""

    def __init__(self, file: Union[str, "os.PathLike[str]"]):
        library = ctypes.CDLL(str(file))
        self.calls = {name: getattr(library, f"puzzles_{name}") for name in CALLS}
        for name, call in self.calls.items():
            call.argtypes, call.restype = (*CALLS[name], *OUTPUT), ctypes.c_uint8
        self.mine = threading.local()

    def solve(self, game: str, text: bytes, budget: int = 100_000) -> Answer:
        return self.answer("solve", game, text, len(text), budget)

    def solve_each(self, game: str, lines: bytes, budget: int = 100_000) -> Answer:
        """The answers to the IDs that are lines of a text."""
        return self.answer("solve_each", game, lines, len(lines), budget)

    def check(self, game: str, text: bytes, grid: bytes) -> Answer:
        return self.answer("check", game, text, len(text), grid, len(grid))

    def grade(self, game: str, text: bytes, budget: int = 100_000, traced: bool = False) -> Answer:
        return self.answer("grade", game, text, len(text), budget, bool(traced))

    def generate(self, game: str, size: bytes, seed: int, budget: int = 100_000, tries: int = 1_000,
                 black: Optional[int] = None) -> Answer:
        if black is not None and game not in BLACK:
            return REFUSED
        share = BLACK.get(game, 0) if black is None else black
        return self.answer("generate", game, size, len(size), seed, budget, tries, share)

    def answer(self, name: str, game: str, *words: Union[bytes, int]) -> Answer:
        """What a call says. ctypes would cut a number that doesn't fit, so that is refused. An answer that is longer than
        the room is asked for again."""
        numbers = [(word, kind) for word, kind in zip(words, CALLS[name][1:]) if isinstance(word, int)]
        if game not in GAMES or not all(is_number(word, kind) for word, kind in numbers):
            return REFUSED
        written, room = ctypes.c_size_t(), getattr(self.mine, "room", None) or ctypes.create_string_buffer(FIRST_ROOM)
        while True:
            self.mine.room = room
            status = self.calls[name](GAMES.index(game), *words, room, len(room), written)
            if status != TOO_SMALL:
                return status, ctypes.string_at(room, written.value) if status < NO_MEMORY else b""
            room = ctypes.create_string_buffer(written.value)


def grade_lines(library: str, game: str, budget: str) -> int:
    """Grades the IDs that are lines of the input. A call can't be cut off, so puzzles.collect has a process for it."""
    puzzles = Puzzles(library)
    for line in sys.stdin.buffer:
        status, said = puzzles.grade(game, line.rstrip(b"\n"), int(budget))
        if status > 4:
            return status
        sys.stdout.buffer.write(said)
    return 0


if __name__ == "__main__":
    sys.exit(grade_lines(*sys.argv[1:]))
