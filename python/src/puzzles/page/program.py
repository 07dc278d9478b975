"""Runs the program `puzzles` for the page. Each run ends by the clock, with all that it began, and only so much of its answer is
read."""
import contextlib
import functools
import os
import queue
import time
from typing import Callable, Iterable, Iterator, List, Optional

from .._process import Kept, Processes, Stopped

SECONDS = 2.0  # of a run; one that takes longer is killed
LONGEST = 1_000_000  # bytes of an answer: the largest board has 14,400 cells, and an answer two of them
IDS = 10_000  # of a worker; by itself it ends after 1,048,576 reads, and an ID takes it 17 or so
WORKERS = min(4, os.cpu_count() or 1)  # of each game
END = b"refused: no colon\n"  # what a worker answers to an empty line
MOMENT = 1.0  # seconds for the end of a process that was killed: the page goes on without it
PROCESSES = Processes()  # all that the server began


class Failed(Exception):
    """There is no answer: `clock`, `busy`, or `program` (a signal, a status over 4, an answer of no known form)."""


@contextlib.contextmanager
def told() -> Iterator[None]:
    """Faults of a process as `Failed`."""
    try:
        yield
    except TimeoutError:
        raise Failed("clock") from None
    except (OSError, ValueError, Stopped):
        raise Failed("program") from None


def whole(pieces: Iterable[bytes], is_whole: Callable[[bytes], bool] = lambda got: False) -> str:
    """What comes, until it is whole or ends."""
    got = b""
    for piece in pieces:
        got += piece
        if len(got) > LONGEST:
            raise Failed("program")
        if is_whole(got):
            break
    return got.decode()


def run(*words: str, given: str = "", end: Optional[float] = None) -> str:
    """What a process of its own answers."""
    clock = functools.partial(float, end or time.monotonic() + SECONDS)
    with told():
        process = PROCESSES.begin(words)
        try:
            answer = whole(process.pieces(given.encode(), clock, is_last=True))
            if process.status(clock) not in range(5):
                raise Failed("program")
            return answer
        finally:
            PROCESSES.end(process, MOMENT)


def is_ended(answer: bytes) -> bool:
    return answer.endswith(b"\n" + END)


class Worker:
    """A `solve` of one game that is kept. It is fed an ID and an empty line, whose own answer marks the end."""

    def __init__(self, words: List[str]):
        self.kept = Kept(words, IDS, PROCESSES.begin, functools.partial(PROCESSES.end, seconds=MOMENT))

    def exchange(self, text: str, end: float) -> str:
        return whole(self.kept.pieces(f"{text}\n\n".encode(), lambda: end), is_ended)

    def solve(self, text: str, end: float) -> str:
        try:
            with told():
                answer = self.exchange(text, end)
                if not answer and self.kept.left < IDS - 1:  # it had ended since the answer before
                    self.kept.close()
                    answer = self.exchange(text, end)
                if not is_ended(answer.encode()):
                    raise Failed("program")
                return answer[:-len(END)]
        except Failed:
            self.kept.close()
            raise


class Workers:
    """Those of one game. A call takes the one that was free last, so that few are begun for a few visitors."""

    def __init__(self, program: str, game: str, budget: int):
        self.free: "queue.LifoQueue[Worker]" = queue.LifoQueue()
        for _ in range(WORKERS):
            self.free.put(Worker([program, "solve", game, "--budget", str(budget)]))

    def solve(self, text: str, end: float) -> str:
        try:
            worker = self.free.get(timeout=max(0, end - time.monotonic()))
        except queue.Empty:
            raise Failed("busy") from None
        try:
            return worker.solve(text, end)
        finally:
            self.free.put(worker)


def is_puzzles(program: str) -> bool:
    """Whether a program answers the README's example as `puzzles` does."""
    with contextlib.suppress(Failed):
        return run(program, "solve", "pattern", "--", "5x1:1/1//1/1/2.2", end=time.monotonic() + 5 * SECONDS) == "one\n##.##\n"
    return False
