"""A kept process of `solve`, which answers tens of thousands of easy IDs a second.

An answer ends where the next one begins, so an empty line is sent behind each part of the IDs. Its own answer,
`refused: no colon`, marks the end. The program reads at most so many times in one run, and then needs a new one.
"""
import os
import threading
import time
from typing import Iterable, Iterator, List, Optional, Tuple

from . import answers
from ._process import Kept, Process, Words
from .answers import Solved, Verdict
from .process import MOST_BYTES, Game, NoAnswer, known, option, program, text_of

READS = 1_000_000  # of one process
PART_LINES, PART_BYTES = 256, 30_000  # that are sent at once
SECONDS = 10.0
MOMENT = 0.5  # seconds


class Worker:
    """Answers IDs of a game, one at a time or as a stream. May be used by many threads, which take turns.

    `budget` is how many trials each search may make (100,000), and `seconds` the clock for each ID.
    `with` ends the process; so do `close`, an interrupt, and the end of the Worker. A fork has a process of its own.
    Raises ValueError for another game, FileNotFoundError without the program.
    """

    def __init__(self, game: Game, *, budget: Optional[int] = None, seconds: float = SECONDS):
        words = [program(), "solve", *option("budget", budget), "--", known(game)]
        self.seconds, self.lock, self.owner = seconds, threading.Lock(), os.getpid()
        self.kept = Kept(words, READS, begun)

    def __enter__(self) -> "Worker":
        return self

    def __exit__(self, *_: object) -> None:
        self.close()

    def __del__(self) -> None:
        if hasattr(self, "kept"):
            self.close()

    def solve(self, text: str) -> Solved:
        """The solutions of one ID. The verdict is LATE where the clock ended the search.

        Raises `NoAnswer` where the program failed; the next call has a new process.
        """
        with self.turn():
            return self.answered([line_of(text)])[0]

    def solve_all(self, texts: Iterable[str]) -> Iterator[Tuple[str, Solved]]:
        """Each text with its answer, in order, as `solve` gives it. Texts are taken some hundreds ahead."""
        for part in parts((text, line_of(text)) for text in texts):
            with self.turn():
                found = self.answered([line for _, line in part])
            yield from zip((text for text, _ in part), found)
            for text, line in part[len(found):]:  # which of them was late or failed isn't known
                with self.turn():
                    found = self.answered([line])
                yield text, found[0]

    def close(self) -> None:
        """Ends the process. A later call begins a new one."""
        self.kept.close()

    def turn(self) -> threading.Lock:
        """The lock for one question. A fork has its own: the thread that holds the other one isn't in it."""
        if self.owner != os.getpid():
            self.lock, self.owner = threading.Lock(), os.getpid()
        return self.lock

    def answered(self, lines: List[bytes]) -> List[Solved]:
        """The answers to the lines. Of several there may be fewer: the program writes those to one read together, so
        of a search that the clock ended it isn't known which line it was of."""
        found: List[Solved] = []
        try:
            for answer in self.exchange(lines):
                found.append(answers.solved(answer))
        except TimeoutError:
            self.close()
            if len(lines) == 1:
                found.append(Solved(Verdict.LATE))
        except (EOFError, ValueError):
            status = self.ended()
            if len(lines) == 1:
                raise NoAnswer(f"the program ended with status {status}") from None
        except BaseException:  # as Ctrl-C: what is still to come would be taken for the next answer
            self.close()
            raise
        return found

    def ended(self) -> int:
        """Ends a process that failed, and tells its status; one of its own, if it ends by itself within a moment."""
        process, status = self.kept.process, -9  # where another thread closed it
        if process:
            try:
                status = process.status(lambda: time.monotonic() + MOMENT)
            except TimeoutError:
                pass
        self.close()
        return status

    def exchange(self, lines: List[bytes]) -> Iterator[List[str]]:
        """The lines of each answer. Raises TimeoutError, EOFError and ValueError."""
        content, end = b"".join(line + b"\n" for line in lines) + b"\n", time.monotonic() + self.seconds
        answer: List[str] = []
        begun, unread = 0, b""
        for piece in self.kept.pieces(content, lambda: end, 2 + len(content) // 1024):  # reads, at most
            *whole, unread = (unread + piece).split(b"\n")
            for line in whole:
                if begins(line):
                    begun, end = begun + 1, time.monotonic() + self.seconds
                    if answer:
                        yield answer
                    answer = []
                answer.append(line.decode())
            if begun > len(lines) and not unread:  # the one that marks the end
                return
        raise EOFError


def begun(words: Words) -> Process:
    """A process in the caller's own group, so that a terminal reaches it."""
    return Process(words, has_group=False)


def begins(line: bytes) -> bool:
    """Whether an answer begins with a line: no row of a grid has a small letter."""
    return line[:1].islower()


def line_of(text: str) -> bytes:
    """A text as one line. One that can be none is a line that is refused."""
    return text_of(text)[:MOST_BYTES + 1].replace(b"\n", b"\r")


def parts(lines: Iterable[Tuple[str, bytes]]) -> Iterator[List[Tuple[str, bytes]]]:
    """Texts with their lines, some at a time."""
    part: List[Tuple[str, bytes]] = []
    size = 0
    for text, line in lines:
        if part and (len(part) == PART_LINES or size + len(line) > PART_BYTES):
            yield part
            part, size = [], 0
        part.append((text, line))
        size += len(line) + 1
    if part:
        yield part


def solve_all(game: Game, texts: Iterable[str], *, budget: Optional[int] = None,
              seconds: float = SECONDS) -> Iterator[Tuple[str, Solved]]:
    """Each text with its answer, in order, by one kept process, which the end of the loop ends.

    `seconds` is the clock for each ID, whose verdict is LATE if it takes longer. Raises what `Worker` does.
    """
    with Worker(game, budget=budget, seconds=seconds) as worker:
        yield from worker.solve_all(texts)
