"""The second half of .ci/run: the tests around the proved core, and the closing line over both halves.

usage: .ci/around.py STATUS LOG [PART..]     status and output of `rt ci`; without a PART all of them run

Each part has bounds (part.py). One that needs what isn't there is skipped, by name. As root with CI=true what is missing of
.ci/needs is installed by apt-get first; where the registry isn't reached it stays missing.
"""
import concurrent.futures
import os
import pathlib
import re
import shutil
import signal
import subprocess
import sys
import tempfile
import time
import traceback
import xml.etree.ElementTree

HERE = pathlib.Path(__file__).resolve().parent
TOP = HERE.parent
PROGRAM = TOP / "crates/puzzles/out/puzzles"
CLOSING = re.compile(r"^(\d+) passed, (\d+) failed$", re.M)
APT_SECONDS = 900
CORES = os.cpu_count() or 1
SHOWN = 4000  # letters of what a failed part wrote
COMMIT = "commit that git can read"
MYPY, TSC = "mypy 1.0", "tsc 4.8"  # Debian 12's; others find other faults
SCRIPTS = {  # words behind python/run, of Python or of a program, and what it needs: programs, or files that were built
    "promises": (["tests/tree/promises.py"], []),
    "documents": (["tests/tree/documents.py"], []),
    "types": (["tests/tree/search_types.py"], ["rt", COMMIT]),
    "mypy": (["-m", "mypy", "--cache-dir", os.devnull, "--config-file", "python/mypy.ini"], [MYPY]),
    "tsc": (["tsc", "-p", "page", "--pretty", "false"], [TSC]),
    "growths": (["tests/program/refuse_growths.py", "PROGRAM"], ["cc"]),
    "memory": (["tests/program/search_memory.py", "PROGRAM"], ["cc"]),
    "library": (["tests/library/library.py", "--puzzles=300", "--calls=20000", "--built=BUILT", "PROGRAM"],
                ["cc", "nm", "libpuzzles.so"]),
    "module": (["tests/library/wasm.py", "--engines=node", "--puzzles=300", "--built=BUILT", "PROGRAM"],
               ["cc", "node", "libpuzzles.so", "puzzles.wasm"]),
}
BY_HAND = ("library", "module")  # `rt lib` proves all crates anew for them; begun by their names, `.ci/around.py STATUS LOG library`
SECONDS, TESTS_SECONDS, BUILD_SECONDS = 1200, 4800, 7200  # of the processor; ten times what a part takes


def said(words):
    print(f"gate: {words}", flush=True)


def python():
    """The Python that has Debian's packages, or else this one."""
    other = shutil.which("python3", path=os.defpath)
    return other if other and has_module("pytest", other) else sys.executable


def has_module(name, of=sys.executable):
    return not subprocess.run([of, "-c", f"import {name}"], capture_output=True, check=False, cwd=os.sep).returncode


def rooms():
    """How many checks of the kit have room in memory, with some 4 GB for each, but not more than there are cores."""
    free = re.search(r"^MemAvailable:\s+(\d+)", pathlib.Path("/proc/meminfo").read_text(), re.M)
    return max(1, min(CORES, int(free[1]) // 4_000_000 if free else 1))


def is_program(name):
    """Whether a program can be run; a compiler of C finds the C library's headers too."""
    words = ["cc", "-E", "-include", "dlfcn.h", "-x", "c", os.devnull]
    return bool(shutil.which(name)) and (name != "cc" or not subprocess.run(words, capture_output=True, check=False).returncode)


def tells(words, version):
    """Whether a program is there in a version."""
    try:
        return subprocess.run(words, capture_output=True, text=True, check=False).stdout.startswith(version)
    except OSError:
        return False


def lacking():
    """Packages of .ci/needs whose probe isn't there, each with its probe. One without a probe goes with the line above it."""
    debian, probe, is_lacking = shutil.which("python3", path=os.defpath), "", False
    for line in (HERE / "needs").read_text().splitlines():
        if line and not line.startswith("#"):
            package, word = line.split()[:2]
            if word != "-":
                probe, module = word, word.removeprefix("import:")
                is_lacking = not (is_program(probe) if module == probe else debian and has_module(module, debian))
            if is_lacking:
                yield package, probe


def apt_get(end, *words):
    """Whether apt-get does something before a moment; else it is ended with what it began."""
    how = ["apt-get", "-q", "-y", "-o", "Acquire::Retries=1", "-o", "Acquire::http::Timeout=20", "-o", "DPkg::Lock::Timeout=60",
           "-o", "Dpkg::Options::=--force-unsafe-io"]
    child = subprocess.Popen([*how, *words], stdin=subprocess.DEVNULL, stdout=subprocess.DEVNULL, stderr=subprocess.DEVNULL,
                             env={**os.environ, "DEBIAN_FRONTEND": "noninteractive"}, start_new_session=True)
    try:
        return not child.wait(max(end - time.monotonic(), 1))
    except subprocess.TimeoutExpired:
        os.killpg(child.pid, signal.SIGKILL)
        child.wait()
        return False


def is_installed(package):
    words = ["dpkg-query", "-W", "-f", "${db:Status-Abbrev}", package]
    return subprocess.run(words, capture_output=True, text=True, check=False).stdout.startswith("ii")


def install():
    """Installs what is missing, on a machine that is there for this run alone. Tells the probes of what isn't there wholly."""
    missing = [*lacking()]
    if not missing or os.environ.get("CI") != "true" or os.geteuid() or not shutil.which("apt-get"):
        return set()
    end, packages = time.monotonic() + APT_SECONDS, [package for package, _ in missing]
    apt_get(end, "update")  # where this fails, old lists may still do
    if not apt_get(end, "install", "--no-install-recommends", *packages):
        for package in packages:  # one that this Debian hasn't holds no other back
            if time.monotonic() < end:
                apt_get(end, "install", "--no-install-recommends", package)
    absent = {probe for package, probe in missing if not is_installed(package)}
    said(f"apt-get: {len(packages)} packages were missing; {APT_SECONDS - (end - time.monotonic()):.0f} s"
         + (f"; still not there: {', '.join(sorted(absent))}" if absent else ""))
    return absent


class Gate:
    """What passed and failed, what was skipped with its reason, and a folder for what is built and told."""

    def __init__(self):
        self.passed, self.failed, self.skipped = 0, [], []
        self.folder = pathlib.Path(tempfile.mkdtemp(prefix="puzzles-gate-"))
        self.built, self.python, self.absent = self.folder / "library", sys.executable, set()

    def is_there(self, probe):
        if probe in self.absent:
            return False
        if probe == COMMIT:
            words = ["git", "-C", str(TOP), "rev-parse", "--verify", "HEAD"]
            return bool(shutil.which("git")) and not subprocess.run(words, capture_output=True, check=False).returncode
        if probe == MYPY:
            return tells([self.python, "-m", "mypy", "--version"], MYPY)
        if probe == TSC:
            return tells(["tsc", "--version"], "Version 4.8")
        return is_program(probe) or (self.built / probe).is_file()

    def missing(self, name, probes):
        """Whether something is missing that a part needs, which is then skipped."""
        lacks = [probe for probe in probes if not self.is_there(probe)]
        if lacks:
            self.skipped.append((name, f"no {lacks[0]}"))
        return lacks

    def run(self, name, seconds, words, **more):
        """The status of a part and what it wrote. Without a status it was ended, and has failed."""
        log = self.folder / f"{name}.log"
        for key, value in {"PROGRAM": PROGRAM, "BUILT": self.built}.items():
            words = [str(word).replace(key, str(value)) for word in words]
        done = subprocess.run([sys.executable, HERE / "part.py", str(seconds), log, *words], cwd=TOP, stdin=subprocess.DEVNULL,
                              stdout=subprocess.PIPE, text=True, check=False,
                              env={**os.environ, "PYTHONDONTWRITEBYTECODE": "1",
                                   "HYPOTHESIS_STORAGE_DIRECTORY": str(self.folder / "hypothesis"),
                                   "ABSENT": " ".join(self.absent), **more})
        wrote = log.read_text(errors="replace") if log.exists() else ""
        clock, used, why = [*done.stdout.strip().split(" ", 2), "", "", ""][:3]
        said(f"{name}: {clock} s, {used} of the processor")
        if why or not used:
            self.failed.append(f"{name}: {why or f'ended with status {done.returncode}'}")
            self.show(name, wrote)
            return None, wrote
        return done.returncode, wrote

    def show(self, name, wrote):
        print(f"--- the end of what {name} wrote ---\n{wrote[-SHOWN:]}\n---", flush=True)

    def before(self, word):
        """What stands before the words of a check."""
        return [self.python] if word == "-m" else [self.python, "python/run"] if word.endswith(".py") else []

    def script(self, name, words, probes):
        """A check that is one test."""
        if self.missing(name, probes):
            return
        status, wrote = self.run(name, SECONDS, [*self.before(words[0]), *words])
        if status == 0:
            self.passed += 1
        elif status is not None:
            self.failed.append(f"{name}: status {status}")
            self.show(name, wrote)

    def build(self):
        """The library and the module, out of the proofs that `rt ci` left."""
        parts = [part for part, probes in {"so": ["objcopy"], "wasm": ["wasm-opt"]}.items()
                 if not self.missing(f"library/build.py {part}", ["rt", *probes])]
        if parts:
            words = [sys.executable, "library/build.py", f"--to={self.built}", f"--jobs={rooms()}", *parts]
            status, wrote = self.run("build", BUILD_SECONDS, words)
            if status:
                self.failed.append(f"library/build.py: status {status}")
                self.show("build", wrote)

    def pytest(self):
        if not has_module("pytest", self.python) or "import:pytest" in self.absent:
            self.skipped.append(("tests/", "no pytest (python3-pytest)"))
            return
        words = [self.python, "-m", "pytest", "-q", "-p", "no:cacheprovider", f"--junitxml={self.folder}/pytest.xml",
                 "--program=PROGRAM", "--library=BUILT/libpuzzles.so", "--module=BUILT/puzzles.wasm",
                 *(["-n", str(min(CORES, 8)), "--dist", "loadgroup"] if has_module("xdist", self.python) else [])]
        status, wrote = self.run("pytest", TESTS_SECONDS, words)
        if status is None:
            return
        if status not in (0, 1):
            self.failed.append(f"pytest: status {status}, without a count")
        else:
            self.count(xml.etree.ElementTree.parse(self.folder / "pytest.xml"))
        if status:
            self.show("pytest", wrote)

    def count(self, tree):
        for one in tree.iter("testcase"):
            name, skip = f"{one.get('classname')}::{one.get('name')}", one.find("skipped")
            if one.find("failure") is not None or one.find("error") is not None:
                self.failed.append(name)
            elif skip is not None:
                self.skipped.append((name, skip.get("message")))
            else:
                self.passed += 1

    def node(self):
        """The tests of the page's scripts, by the runner that Node has."""
        if self.missing("tests/page/js", ["node"]):
            return
        words = ["node", "--test", *sorted((TOP / "tests/page/js").glob("*.test.mjs"))]
        status, wrote = self.run("node", TESTS_SECONDS, words, PUZZLES=str(PROGRAM))
        counts = {name: int(number) for name, number in re.findall(r"^\S+ (pass|fail|cancelled) (\d+)$", wrote, re.M)}
        if status is None:
            return
        self.passed += counts.get("pass", 0)
        self.skipped += re.findall(r"^ok \d+ - (.*?) # SKIP (.*)$", wrote, re.M)
        faults = counts.get("fail", 0) + counts.get("cancelled", 0)
        if status or faults or not counts.get("pass"):
            self.failed += re.findall(r"^not ok \d+ - (.*)$", wrote, re.M) or ["tests/page/js"] * max(faults, 1)
            self.show("node", wrote)

    def all(self, only):
        """What needs no library beside its building, then the rest, and pytest's tests, which take all cores."""
        self.python = python()

        def begin(pool, names):
            return [pool.submit(self.script, name, *SCRIPTS[name]) for name in names if not only or name in only]
        if not only:
            self.skipped += [(name, "by hand") for name in BY_HAND]
        with concurrent.futures.ThreadPoolExecutor(CORES) as pool:
            waits = [pool.submit(self.build)] if set(BY_HAND) & set(only) else []
            others = begin(pool, [name for name in SCRIPTS if name not in BY_HAND])
            others += [pool.submit(self.node)] if not only or "node" in only else []
            for wait in waits:
                wait.result()
            for wait in [*others, *begin(pool, [name for name in BY_HAND if name in only])]:
                wait.result()
        if not only or "pytest" in only:
            self.pytest()

    def close(self):
        """The closing line and the status."""
        reasons = {}
        for name, why in self.skipped:
            reasons.setdefault(why, []).append(name)
        for why, names in sorted(reasons.items()):
            said(f"skipped, {why}: {len(names)}: {', '.join(names[:4])}{', ..' if len(names) > 4 else ''}")
        for name in self.failed:
            said(f"FAILED {name}")
        if self.failed:
            said(f"what was written lies in {self.folder}")
        else:
            shutil.rmtree(self.folder, ignore_errors=True)
        print(f"{self.passed} passed, {len(self.failed)} failed, {len(self.skipped)} skipped", flush=True)
        return 1 if self.failed else 0


def main():
    status, log, *only = sys.argv[1:]
    gate, closing = Gate(), CLOSING.findall(pathlib.Path(log).read_text(errors="replace"))
    if closing:
        gate.passed = int(closing[-1][0])
        gate.failed += [f"rt ci ({number + 1})" for number in range(int(closing[-1][1]))]
    if not gate.failed and (int(status) or not closing):
        gate.failed.append(f"rt ci: status {status}" + ("" if closing else ", without a count"))
    if gate.failed and not only:
        gate.skipped.append(("all tests around the core", "rt ci failed"))
    else:
        try:
            gate.absent = install()
            gate.all(only)
        except Exception as fault:  # the closing line has to come
            traceback.print_exc()
            gate.failed.append(f"around.py: {type(fault).__name__}: {fault}")
    return gate.close()


if __name__ == "__main__":
    sys.exit(main())
