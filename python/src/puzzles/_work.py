"""What the examples share: calls of the program, a bar of progress, and an end in words.

Statuses: 2 words or an ID refused, 6 a fault of reading or writing, 7 a program that isn't there or fails, 130 stopped.
"""
import contextlib
import os
import shutil
import signal
import sqlite3
import subprocess
import sys
import time
from typing import Any, Callable, List, NoReturn, Optional, Tuple

from ._process import END_SECONDS, Processes, Stopped, Words

REFUSED, DISK, FAILED, STOPPED = 2, 6, 7, 130
EXAMPLE = ("solve", "pattern", "--", "5x1:1/1//1/1/2.2"), ["one", "##.##"]


class Fault(Exception):
    """One sentence, and the status of the script."""

    def __init__(self, sentence: object, status: int = FAILED):
        super().__init__(sentence)
        self.status = status


class Late(Fault):
    """A call that took longer than its clock."""


class Program:
    """The program `puzzles`. Calls may come from many threads, and `stop` ends those that run."""

    def __init__(self, name: str, seconds: float = 300):
        beside = os.path.dirname(sys.argv[0])  # where a package puts both
        path = shutil.which(name) or shutil.which(name, path=beside)
        if not path:
            raise Fault(f"no program {name} that can be run: say where `puzzles` is by --program")
        self.path, self.seconds, self.processes = path, seconds, Processes()
        if self.ask(*EXAMPLE[0]) != EXAMPLE[1]:
            raise Fault(f"{name} is not the program `puzzles`: it doesn't solve a Pattern of 5x1")

    def run(self, words: Words, given: str = "", seconds: Optional[float] = None) -> Tuple[List[str], int]:
        """The lines of a process, and its status."""
        end = time.monotonic() + (seconds or self.seconds)
        try:
            with self.processes.one(words, is_quiet=True) as process:
                output, status = process.answer(given.encode("utf-8", "replace"), lambda: end)
        except Stopped:
            raise Fault("stopped", STOPPED) from None
        except TimeoutError:
            raise Late(f"no answer within {seconds or self.seconds:g} seconds: {' '.join(map(str, words[:3]))}") from None
        return output.decode("utf-8", "replace").splitlines(), status

    def ask(self, *words: str, given: str = "") -> List[str]:
        """The lines that the program answers."""
        lines, status = self.run([self.path, *words], given)
        if status not in range(5):
            raise Fault(f"{self.path} {words[0]} ended " + (f"with status {status}" if status > 0 else f"by signal {-status}"))
        return lines

    def stop(self) -> None:
        self.processes.stop()


def end(child: "subprocess.Popen[Any]") -> None:
    """Ends a process of a session of its own with all that it began, also if it has ended itself."""
    with contextlib.suppress(ProcessLookupError):
        os.killpg(child.pid, signal.SIGKILL)
    child.wait(END_SECONDS)


class Bar:
    """Progress on standard error: a bar on a terminal, else a line each ten seconds."""

    def __init__(self, what: str, most: int):
        self.what, self.most, self.is_terminal = what, most, sys.stderr.isatty()
        self.told = time.monotonic()

    def tell(self, done: int, more: str = "") -> None:
        now, is_end = time.monotonic(), done >= self.most
        if now - self.told < (.1 if self.is_terminal else 10) and not (is_end and self.is_terminal):
            return
        self.told, filled = now, 30 * done // max(self.most, 1)
        text = f"{self.what} [{'#' * filled}{'.' * (30 - filled)}] {done:,} of {self.most:,}{more}"
        print(f"\r{text}\x1b[K" if self.is_terminal else text, end="" if self.is_terminal else "\n", file=sys.stderr, flush=True)

    def end(self) -> None:
        if self.is_terminal:
            print("\r\x1b[K", end="", file=sys.stderr, flush=True)


def begin(main: Callable[[], Optional[int]]) -> NoReturn:
    """Runs a script, and ends it with its status, or with one sentence and a status."""
    def stop(*_: object) -> NoReturn:
        raise KeyboardInterrupt
    signal.signal(signal.SIGTERM, stop)
    try:
        status = main()
        sys.stdout.flush()
    except KeyboardInterrupt:
        status = told("stopped", STOPPED)
    except Fault as fault:
        status = told(fault, fault.status)
    except sqlite3.Error as fault:
        status = told(f"the table: {fault}", DISK)
    except subprocess.SubprocessError as fault:
        status = told(fault, FAILED)
    except OSError as fault:
        status = told(": ".join(filter(None, [fault.strerror or str(fault), fault.filename and str(fault.filename)])), DISK)
    if status:
        os.dup2(os.open(os.devnull, os.O_WRONLY), 1)  # what is left for a full disk or a closed pipe
    sys.exit(status)


def told(sentence: object, status: int) -> int:
    print(f"{os.path.basename(sys.argv[0])}: {sentence}", file=sys.stderr)
    return status
