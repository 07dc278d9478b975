"""A process under a clock: fed and read without ever waiting for longer, and ended with all that it began.

`Worker`, the single calls, the page's server and the tools stand on this, and nothing else here talks to a process.
"""
import contextlib
import math
import os
import selectors
import signal
import subprocess
import threading
import time
from typing import Callable, Iterator, Optional, Sequence, Set, Tuple, Union

PIECE = 1 << 16  # bytes of one read or write
END_SECONDS = 120.0  # for the end of a process that was killed
Words = Sequence[Union[str, bytes]]
Clock = Callable[[], float]  # tells the moment of time.monotonic() at which it ends, which may change meanwhile


class Stopped(Exception):
    """No more processes are begun."""


class Process:
    """A process, and with `has_group` a group of its own, so that what it starts ends with it."""

    def __init__(self, words: Words, *, has_group: bool = True, is_quiet: bool = False):
        self.has_group, self.owner = has_group, os.getpid()
        self.child = subprocess.Popen(words, stdin=subprocess.PIPE, stdout=subprocess.PIPE, bufsize=0,
                                      stderr=subprocess.DEVNULL if is_quiet else None, start_new_session=has_group)
        assert self.child.stdin and self.child.stdout
        self.given, self.taken = self.child.stdin, self.child.stdout
        for pipe in (self.given, self.taken):
            os.set_blocking(pipe.fileno(), False)

    def is_mine(self) -> bool:
        """Whether this Python process began it, and not the one that it was forked from."""
        return self.owner == os.getpid()

    def is_alive(self) -> bool:
        return self.is_mine() and self.child.poll() is None

    def pieces(self, sent: bytes, clock: Clock, *, is_last: bool = False) -> Iterator[bytes]:
        """Sends bytes, and closes the input if they are the last. Gives what comes, until the output ends or the caller has
        enough. Raises TimeoutError if the clock ends; what has come by then is given first."""
        rest, was_over = memoryview(sent), False
        with selectors.PollSelector() as pipes:
            pipes.register(self.taken, selectors.EVENT_READ)
            if rest or is_last:
                pipes.register(self.given, selectors.EVENT_WRITE)
            while True:
                left = clock() - time.monotonic()
                ready = [] if left <= 0 and was_over else pipes.select(None if left == math.inf else max(left, 0))
                was_over = left <= 0
                if not ready:
                    raise TimeoutError
                open_ones = [key.fileobj for key, _ in ready]
                if self.given in open_ones:
                    rest = rest[self.write(rest):]
                    if not rest:
                        pipes.unregister(self.given)
                        if is_last:
                            self.given.close()
                if self.taken in open_ones:
                    piece = os.read(self.taken.fileno(), PIECE)
                    if not piece:
                        return
                    yield piece

    def write(self, rest: memoryview) -> int:
        """How many bytes the process took. One that has ended, or answers without reading on, takes all."""
        try:
            return os.write(self.given.fileno(), rest[:PIECE]) if rest else 0
        except BlockingIOError:
            return 0
        except BrokenPipeError:
            return len(rest)

    def answer(self, sent: bytes, clock: Clock) -> Tuple[bytes, int]:
        """All that it writes to its last input, and its status. Raises TimeoutError."""
        answer = b"".join(self.pieces(sent, clock, is_last=True))
        return answer, self.status(clock)

    def status(self, clock: Clock) -> int:
        """Its status once it has ended by itself. Raises TimeoutError."""
        end = clock()
        try:
            return self.child.wait(None if end == math.inf else max(0, end - time.monotonic()))
        except subprocess.TimeoutExpired:
            raise TimeoutError from None

    def kill(self) -> None:
        """Ends it with all that it began, also if it has ended itself. May be called by any thread."""
        with contextlib.suppress(ProcessLookupError):
            if self.has_group:
                os.killpg(self.child.pid, signal.SIGKILL)
            else:
                self.child.kill()

    def end(self, seconds: float = END_SECONDS) -> None:
        """Ends it, and waits for that. Of a fork the process goes on: it is of the one that forked."""
        if self.is_mine():
            self.kill()
        else:
            self.child.returncode = 0  # else Python waits for it
        with contextlib.suppress(subprocess.TimeoutExpired):
            self.child.wait(seconds)
        for pipe in (self.given, self.taken):  # now, so that a thread which waits for them has seen their end
            with contextlib.suppress(OSError):
                pipe.close()


class Processes:
    """Processes that any thread may end together. Then no more are begun."""

    def __init__(self) -> None:
        self.running: Set[Process] = set()
        self.lock, self.is_over = threading.Lock(), False

    @contextlib.contextmanager
    def one(self, words: Words, *, is_quiet: bool = False) -> Iterator[Process]:
        """A process that ends with its block. Raises Stopped."""
        process = self.begin(words, is_quiet=is_quiet)
        try:
            yield process
        finally:
            self.end(process)

    def begin(self, words: Words, *, is_quiet: bool = False) -> Process:
        with self.lock:
            if self.is_over:
                raise Stopped
            process = Process(words, is_quiet=is_quiet)
            self.running.add(process)
        return process

    def end(self, process: Process, seconds: float = END_SECONDS) -> None:
        process.end(seconds)
        self.running.discard(process)

    def stop(self) -> None:
        with self.lock:
            self.is_over = True
        for process in list(self.running):
            process.kill()


class Kept:
    """A process that is kept from one question to the next. A new one is begun after a fork, where it has ended, where another
    program stands in its place, and where it has been asked for as much as it may be."""

    def __init__(self, words: Words, most: int, begin: Callable[[Words], Process],
                 end: Callable[[Process], None] = Process.end):
        self.words, self.most, self.begin, self.finish = words, most, begin, end
        self.process: Optional[Process] = None
        self.left, self.file = 0, (0, 0, 0)

    def pieces(self, sent: bytes, clock: Clock, cost: int = 1) -> Iterator[bytes]:
        """What comes of a question, as from a process' own `pieces`."""
        found = os.stat(self.words[0])
        file = found.st_dev, found.st_ino, found.st_mtime_ns
        if not self.process or not self.process.is_alive() or self.left < cost or file != self.file:
            self.close()
            self.left, self.file = self.most, file
            self.process = self.begin(self.words)
        self.left -= cost
        return self.process.pieces(sent, clock)

    def close(self) -> None:
        """Ends the process, if there is one."""
        process, self.process = self.process, None  # first, so that a second Ctrl-C leaves none that is half ended
        if process:
            self.finish(process)
