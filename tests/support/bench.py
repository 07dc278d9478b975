"""What tests share: a folder, the program and the tools as they are installed, and calls with a bound on each."""
import os
import pathlib
import re
import shutil
import subprocess
import sys

from support.trial import Wrong, expect

TOP = pathlib.Path(__file__).resolve().parents[2]
EXAMPLES, SOURCES = TOP / "examples", TOP / "python" / "src"
TOOLS = ("book", "collect", "convert", "drawing", "ids")
LAUNCHER = """#!{python}
import sys
sys.argv[1:1] = ["{tool}"]
sys.path[:1] = ["{sources}"]
from puzzles.__main__ import main
sys.exit(main())
"""
SECONDS = 600  # for a call
LETTERS = "0123456789abcdefghijklmnopqrstuvwxyzB_./,:x#-"
PROGRESS = re.compile(r"\w+ \[#*\.*\] ")
DEBIAN = "/usr/bin/python3"  # which has Debian's packages


def without_progress(text):
    """What is told but for lines of progress, which come on a busy machine alone."""
    return "".join(line for line in text.splitlines(True) if not PROGRESS.match(line))


def is_answer(line):
    """Each answer begins with a small letter, and no row of a grid does."""
    return line[:1].islower()


class Bench:
    """A folder of its own with the program as `puzzles` on the path."""

    def __init__(self, program, folder):
        self.folder = pathlib.Path(folder)
        self.program = self.folder / "bin" / "puzzles"
        self.program.parent.mkdir()
        shutil.copy(program, self.program)
        self.tools = {f"puzzles-{tool}": self.launcher(tool) for tool in TOOLS}
        self.environment = {**os.environ, "PATH": f"{self.program.parent}:{os.environ['PATH']}", "HOME": str(self.folder),
                            "LC_ALL": "C.UTF-8"}

    def launcher(self, tool):
        """What a package installs as puzzles-TOOL."""
        path = self.program.with_name(f"puzzles-{tool}")
        path.write_text(LAUNCHER.format(python=sys.executable, tool=tool, sources=SOURCES))
        path.chmod(0o755)
        return path

    def line(self, words):
        """A command line, with the tool's whole path, whatever PATH says."""
        return [self.tools.get(words[0], words[0]), *words[1:]]

    def run(self, words, given="", stdout=subprocess.PIPE, seconds=SECONDS, **more):
        try:
            done = subprocess.run(self.line(words), input=given, stdout=stdout, stderr=subprocess.PIPE, encoding="utf-8",
                                  errors="surrogateescape", cwd=self.folder, env={**self.environment, **more}, timeout=seconds,
                                  check=False)
        except subprocess.TimeoutExpired:
            raise Wrong(f"no end within {seconds} seconds: {' '.join(map(str, words))[:200]}") from None
        done.stderr = without_progress(done.stderr)
        return done

    def good(self, words, given="", **more):
        """What a call writes that ends with status 0."""
        done = self.run(words, given, **more)
        expect(done.returncode == 0, f"{' '.join(map(str, words))[:200]}: status {done.returncode}: {done.stderr[-300:]}")
        return done.stdout

    def told(self, words, status, sentence, given="", stdout=subprocess.PIPE, **more):
        """A call ends with a status and one sentence, which has these words, and without a traceback."""
        done = self.run(words, given, stdout, **more)
        lines = [line for line in done.stderr.splitlines() if not line.startswith(("usage:", " "))]
        name = " ".join(map(str, words))[:200]
        expect(done.returncode == status, f"{name}: status {done.returncode}, wanted {status}: {done.stderr[-300:]}")
        expect(len(lines) == 1 and sentence in lines[0] and "Traceback" not in done.stderr, f"{name}: {done.stderr[-500:]}")
        return done.stdout

    def generate(self, game, size, seed, *more):
        return self.good([self.program, "generate", game, size, f"--seed={seed}", *more]).splitlines()

    def grade(self, game, text):
        return self.run([self.program, "grade", game, "--", text]).stdout.strip()

    def written(self, game, lines):
        """What ids.py writes for each line."""
        done = subprocess.run([self.tools["puzzles-ids"], game], input=b"".join(line + b"\n" for line in lines),
                              capture_output=True, timeout=SECONDS, env=self.environment, check=False)
        told = f"puzzles-ids {game}: status {done.returncode}: {done.stderr[-300:]}"
        expect(done.returncode in (0, 2) and not done.stderr, told)
        return done.stdout.decode().splitlines()

    def answers(self, game, lines):
        """What `solve` answers to each line: a list of lines each."""
        done = subprocess.run([self.program, "solve", game, "--budget", "50"], input=b"".join(line + b"\n" for line in lines),
                              capture_output=True, timeout=SECONDS, check=False)
        answers = []
        for line in done.stdout.decode().splitlines():
            if is_answer(line):
                answers.append([])
            answers[-1].append(line)
        return answers

    def start(self, words, **more):
        """A process in a session of its own."""
        return subprocess.Popen(self.line(words), stdin=subprocess.DEVNULL, stdout=subprocess.PIPE, stderr=subprocess.PIPE,
                                encoding="utf-8", cwd=self.folder, env=self.environment, start_new_session=True, **more)

    def small_disk(self, name, words):
        """A folder on a disk of its own, or None if this user may not mount one."""
        folder = self.folder / name
        folder.mkdir(exist_ok=True)
        done = subprocess.run(["mount", "-t", "tmpfs", "-o", words, "tmpfs", folder], capture_output=True, check=False,
                              timeout=SECONDS)
        return folder if done.returncode == 0 else None

    def unmount(self, folder):
        subprocess.run(["umount", "-l", folder], capture_output=True, check=False, timeout=SECONDS)


def children(pid):
    """The processes of a session that still run."""
    found = subprocess.run(["ps", "-o", "pid=,stat=", "-s", str(pid)], capture_output=True, text=True, check=False,
                           timeout=SECONDS)
    return [line for line in found.stdout.splitlines() if " Z" not in line]
