"""Where the program is, and one run of it."""
import math
import operator
import os
import shutil
import sysconfig
import time
from typing import List, Literal, Optional, Sequence, Union

from ._process import Process

Game = Literal["solo", "pattern", "lightup", "tents"]
GAMES = ("solo", "pattern", "lightup", "tents")
MOST_BYTES = 65_536  # of an ID
STATUSES = range(5)  # with an answer


class NoAnswer(Exception):
    """The program ended without an answer: by a signal, for want of memory, or with another fault."""


class Late(NoAnswer):
    """The clock ended the program."""


def program() -> str:
    """The path of the program. Raises FileNotFoundError."""
    beside = os.path.join(sysconfig.get_path("scripts"), "puzzles")
    is_beside = os.access(beside, os.X_OK) and not os.path.isdir(beside)
    found = shutil.which(os.environ.get("PUZZLES") or (beside if is_beside else "puzzles"))
    if not found:
        raise FileNotFoundError("no program `puzzles` beside this Python, on the path, or where PUZZLES says")
    return found


def known(game: str) -> str:
    """The game's name. Raises ValueError if there is no such game."""
    if game not in GAMES:
        raise ValueError(f"{game!r} is none of {', '.join(GAMES)}")
    return str(game)


def option(name: str, value: Optional[int]) -> List[str]:
    """The words of an option, if it has a value."""
    return [] if value is None else [f"--{name}={whole(value)}"]


def whole(value: int) -> int:
    """A whole number. Raises TypeError for another, as 1.5."""
    return operator.index(value)


def text_of(text: str) -> bytes:
    """An ID or a size in bytes. What a form hands over around it is taken off. Raises TypeError for what is no text."""
    if not isinstance(text, str):
        raise TypeError(f"an ID or a size is a text (str), and not {type(text).__name__}")
    return text.strip("\ufeff \t\r\n").encode("utf-8", "replace")


def is_word(word: bytes) -> bool:
    """Whether the system can pass it."""
    return len(word) <= MOST_BYTES and b"\0" not in word


def run(words: Sequence[Union[str, bytes]], given: str, seconds: Optional[float]) -> List[str]:
    """The lines of one run. Raises `Late` and `NoAnswer`."""
    end = math.inf if seconds is None else time.monotonic() + seconds
    process = Process([program(), *words], has_group=False, is_quiet=True)
    try:
        answer, status = process.answer(given.encode("utf-8", "replace"), lambda: end)
    except TimeoutError:
        raise Late(f"no answer within {seconds:g} seconds") from None
    finally:
        process.end()
    if status not in STATUSES or not answer:
        raise NoAnswer(f"status {status}")
    return answer.decode("utf-8", "replace").splitlines()
