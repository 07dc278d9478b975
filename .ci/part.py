"""Runs one part of the gate, and ends all that it began. Its bounds are such that a busy machine doesn't break them.

usage: .ci/part.py SECONDS LOG WORDS..     seconds of the processor, for all of its processes; what it writes goes to LOG

A part is ended too if it takes next to no time of the processor for IDLE seconds, and after WHOLE seconds by the clock: what
waits looks up now and then. Prints its seconds by the clock and of the processor. The status is the part's own, or LATE.
"""
import ctypes
import os
import resource
import signal
import subprocess
import sys
import time

IDLE, WHOLE = 300, 2 * 3600
LEAST = .2  # seconds of the processor in so many idle ones
LATE = 124
SUBREAPER = 36  # Linux: what loses its parent becomes a child of this process
TICKS = os.sysconf("SC_CLK_TCK")


def processes():
    """Of each process its parent and the seconds that it took, with those of its children that have ended."""
    found = {}
    for name in filter(str.isdigit, os.listdir("/proc")):
        try:
            with open(f"/proc/{name}/stat", "rb") as file:
                fields = file.read().rpartition(b") ")[2].split()
        except OSError:
            continue
        found[int(name)] = int(fields[1]), sum(map(int, fields[11:15])) / TICKS
    return found


def below(found):
    """The processes that come of this one."""
    mine, more = set(), {os.getpid()}
    while more:
        more = {one for one, (parent, _) in found.items() if parent in more} - mine
        mine |= more
    return mine


def spent():
    """Seconds of the processor of all that this process began."""
    found, ended = processes(), resource.getrusage(resource.RUSAGE_CHILDREN)
    return ended.ru_utime + ended.ru_stime + sum(found[one][1] for one in below(found))


def end_all():
    """Ends what is left, also what begins meanwhile."""
    while left := below(processes()):
        for one in left:
            try:
                os.kill(one, signal.SIGKILL)
            except ProcessLookupError:
                pass
        bury()
        time.sleep(.01)


def bury(wanted=None):
    """Takes what has ended, and tells the status of the one that is wanted."""
    status = None
    while True:
        try:
            one, how = os.waitpid(-1, os.WNOHANG)
        except ChildProcessError:
            return status
        if not one:
            return status
        if one == wanted:
            status = os.waitstatus_to_exitcode(how)


def run(most, words):
    """The status of a part, and what ended it if it was late."""
    parent, begun = os.getppid(), time.monotonic()
    child = subprocess.Popen(words, stdin=subprocess.DEVNULL, start_new_session=True)
    mark, used = begun, 0
    while True:
        status = bury(child.pid)
        if status is not None:
            return status, ""
        now, found = time.monotonic(), spent()
        if found - used > LEAST:
            mark, used = now, found
        if found > most:
            return LATE, f"no end within {most} seconds of the processor"
        if now - mark > IDLE:
            return LATE, f"nothing done for {IDLE} seconds"
        if now - begun > WHOLE or os.getppid() != parent:
            return LATE, f"no end within {WHOLE} seconds"
        time.sleep(.2)


def main():
    most, log, *words = sys.argv[1:]
    ctypes.CDLL(None).prctl(SUBREAPER, 1, 0, 0, 0)
    answers, begun = os.dup(1), time.monotonic()
    file = os.open(log, os.O_WRONLY | os.O_CREAT | os.O_TRUNC)
    os.dup2(file, 1)
    os.dup2(file, 2)
    for one in (signal.SIGTERM, signal.SIGINT, signal.SIGHUP):
        signal.signal(one, lambda number, _: sys.exit(128 + number))
    try:
        status, why = run(float(most), words)
    finally:
        used = spent()
        end_all()
    os.write(answers, f"{time.monotonic() - begun:.0f} {used:.0f} {why}\n".encode())
    return status if status >= 0 else 128 - status


if __name__ == "__main__":
    sys.exit(main())
