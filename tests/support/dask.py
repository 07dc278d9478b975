"""A Dask scheduler and its workers on 127.0.0.1 for the scripts that try or time them, with the program as `puzzles`."""
import contextlib
import os
import pathlib
import shlex
import shutil
import socket
import subprocess

from support.trial import wait_until
from puzzles._work import end

JOB = pathlib.Path(__file__).resolve().parents[2] / "examples" / "dask" / "job.py"
START_SECONDS = 120  # for a scheduler or a worker
JOB_SECONDS = 600  # for a job


class Bench:
    """A folder with the program as `puzzles`, stand-ins for it, and what a case starts."""

    def __init__(self, program, python, folder):
        self.python, self.folder = python, pathlib.Path(folder)
        self.bin = self.folder / "bin"
        self.bin.mkdir()
        shutil.copy(program, self.bin / "puzzles")
        self.environment = {**os.environ, "PATH": f"{self.bin}:{os.environ['PATH']}", "HOME": str(self.folder)}

    def stand_in(self, name, text):
        """A shell script beside the program, which the workers find by this name."""
        path = self.bin / name
        path.write_text(f"#!/bin/sh\nfolder={shlex.quote(str(self.folder))}\n{text}")
        path.chmod(0o755)
        return name

    def file(self, lines):
        path = self.folder / "lines.txt"
        path.write_text("".join(f"{line}\n" for line in lines))
        return path

    def plain(self, words, given=b""):
        """The bytes and the status of one process."""
        done = subprocess.run([self.bin / "puzzles", *words], input=given, capture_output=True, timeout=JOB_SECONDS, check=False)
        return done.stdout, done.returncode

    def start(self, words, log):
        with open(self.folder / log, "wb") as out:
            return subprocess.Popen(words, stdin=subprocess.DEVNULL, stdout=out, stderr=out, cwd=self.folder,
                                    env=self.environment, start_new_session=True)

    def command(self, address, path, words, options=()):
        return [self.python, JOB, *map(str, options), address, path, *words]

    def job(self, address, path, words, options=()):
        """What a job writes to both ends, and its status."""
        done = subprocess.run(self.command(address, path, words, options), capture_output=True, timeout=JOB_SECONDS,
                              stdin=subprocess.DEVNULL, env=self.environment, check=False)
        return done.stdout, done.returncode, done.stderr.decode()


def free_port():
    with socket.socket() as probe:
        probe.bind(("127.0.0.1", 0))
        return probe.getsockname()[1]


@contextlib.contextmanager
def cluster(bench, workers, nannies=False):
    """The address of a scheduler, the workers that have joined it, and itself. A nanny begins a lost worker anew."""
    address, started = f"tcp://127.0.0.1:{free_port()}", []
    dask = [bench.python, "-m", "dask"]
    try:
        host, port = address.removeprefix("tcp://").split(":")
        started.append(bench.start([*dask, "scheduler", "--host", host, "--port", port, "--no-dashboard"], "scheduler.log"))
        words = [*dask, "worker", address, "--nthreads", "1", "--no-dashboard", "--memory-limit", "0",
                 "--death-timeout", str(START_SECONDS), "--local-directory", str(bench.folder / "workers")]
        for number in range(workers):
            started.append(bench.start([*words, "--nanny" if nannies else "--no-nanny"], f"worker{number}.log"))
        for number in range(workers):
            log = bench.folder / f"worker{number}.log"
            wait_until(lambda log=log: b"Registered to" in log.read_bytes(), START_SECONDS, f"worker {number} did not join")
        yield address, started[1:], started[0]
    finally:
        for process in started:
            end(process)


def has_dask(python):
    """Whether this Python has a scheduler and workers."""
    try:
        done = subprocess.run([python, "-c", "import distributed"], capture_output=True, check=False, timeout=START_SECONDS)
    except OSError:
        return False
    return done.returncode == 0
