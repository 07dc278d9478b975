"""The packages on a bare Debian of the host's own release, which debootstrap makes anew: the program without Python, the library
by pkg-config, by CMake and statically, and the folder for npm offline with its types. By hand, as root:

    python3 -m pytest --slow tests/packages/test_bare.py --program=PROGRAM --library=LIBRARY --module=MODULE
"""
import os
import pathlib
import shutil
import subprocess

import pytest

from library.test_npm import TYPED, USE
from packages.test_library_packages import ANSWER, CMAKE
from support.bench import TOP

MINUTES = 60
TOOLS = {"library": ["gcc", "libc6-dev", "pkg-config", "cmake", "make"], "npm": ["nodejs", "npm", "node-typescript"]}
CALL = ["pattern", "5x1:1/1//1/1/2.2"]
INSIDE = 'mount -t proc proc "$0/proc" && mount --bind /dev "$0/dev" && exec chroot "$0" "$@"'
KNOWN = ["PATH=/usr/sbin:/usr/bin:/sbin:/bin", "HOME=/there", "LC_ALL=C.UTF-8", "DEBIAN_FRONTEND=noninteractive"]
STRICT = ["--strict", "--noEmit", "--target", "es2022", "--module", "node16", "--moduleResolution", "node16",
          "--lib", "es2022,dom"]
pytestmark = [pytest.mark.slow, pytest.mark.needs("debootstrap", "unshare", "dpkg", "git", "a commit"),
              pytest.mark.skipif(os.geteuid() != 0, reason="not root"), pytest.mark.xdist_group("bare")]


def ran(words, **more):
    done = subprocess.run([*map(str, words)], stdin=subprocess.DEVNULL, capture_output=True, text=True, check=False,
                          timeout=MINUTES * 60, **more)
    assert done.returncode == 0, f"{' '.join(map(str, words))}: {done.stdout[-2000:]}{done.stderr[-2000:]}"
    return done.stdout


class Bare:
    """A Debian with what it can't do without, and a folder /there for what is brought in."""

    def __init__(self, folder):
        form = ["--format", "$(REPO_URI) $(CODENAME)", "Created-By: Packages"]
        mirror, name = ran(["apt-get", "indextargets", *form]).split()[:2]
        self.root, self.there = folder / "root", folder / "root/there"
        ran(["debootstrap", "--variant=minbase", name, self.root, mirror])
        self.there.mkdir()

    def run(self, *words, at="/there"):
        """What a command writes there. It has a list of processes of its own, which ends with it."""
        here = f'cd {at} && exec "$@"'
        return ran(["unshare", "--mount", "--pid", "--fork", "bash", "-c", INSIDE, self.root, "env", "-i", *KNOWN,
                    "bash", "-c", here, "bash", *words])

    def install(self, *packages):
        self.run("apt-get", "-q", "-y", "install", "--no-install-recommends", *packages)

    def ours(self, files):
        """Installs packages of files."""
        names = [pathlib.Path(shutil.copy(file, self.there)).name for file in files]
        assert names
        self.install(*(f"/there/{name}" for name in names))

    def left(self):
        """Files that have our name."""
        found = self.run("find", "/", "-xdev", "-name", "*puzzles*", "-not", "-path", "/there/*", "-not", "-path", "/proc/*")
        return [path for path in found.splitlines() if not path.endswith(("dpkg/status", "dpkg/status-old"))]


@pytest.fixture(scope="module")
def bare(tmp_path_factory):
    return Bare(tmp_path_factory.mktemp("bare"))


def test_program(bare, program, tmp_path):
    """the program runs without Python, a tool doesn't, and all of it goes"""
    ran([TOP / "packaging/package.py", program, tmp_path])
    bare.ours(tmp_path.glob("*.deb"))
    assert bare.run("puzzles", "solve", *CALL) == ANSWER
    bare.run("bash", "-c", "! puzzles-ids --help")
    bare.run("apt-get", "-q", "-y", "purge", "puzzles")
    assert bare.left() == []


def test_library(bare, library, tmp_path):
    """a program that was made elsewhere wants libpuzzles0 alone; callers in C are made by pkg-config, CMake and statically, with
    no folder said; all of it goes"""
    ran([TOP / "packaging/package_library.py", library.resolve().parent, tmp_path])
    shutil.copy(TOP / "examples/library/solve.c", bare.there)
    bare.ours(tmp_path.glob("libpuzzles0*"))
    assert not bare.run("bash", "-c", "ls /usr/include/puzzles.h || true")
    bare.install(*TOOLS["library"])
    bare.ours(sorted(tmp_path.glob("*.deb")))
    bare.run("bash", "-c", "cc -Wall -Werror -o shared solve.c $(pkg-config --cflags --libs 'puzzles >= 0.1')")
    bare.run("bash", "-c", "cc -static -o static solve.c $(pkg-config --cflags --static --libs puzzles)")
    (bare.there / "CMakeLists.txt").write_text(CMAKE.format(caller="solve.c"))
    bare.run("bash", "-c", "cmake -S . -B build && cmake --build build")
    for caller in ("./shared", "./static", "build/shared", "build/static"):
        assert bare.run(caller, *CALL) == ANSWER
    bare.run("apt-get", "-q", "-y", "purge", "libpuzzles-dev")
    assert bare.run("./shared", *CALL) == ANSWER
    bare.run("apt-get", "-q", "-y", "purge", "libpuzzles0")
    assert bare.left() == [] and bare.run("./static", *CALL) == ANSWER


def test_npm(bare, module):
    """the folder is installed offline, used by name with a call that is ended, and checked by strict TypeScript"""
    bare.install(*TOOLS["npm"])
    ran([TOP / "library/npm_folder.py", module, bare.there / "made"])
    project = bare.there / "project"
    project.mkdir()
    for name, text in {"package.json": '{ "type": "module", "private": true }', "use.mjs": USE, "typed.ts": TYPED}.items():
        (project / name).write_text(text)
    bare.run("npm", "install", "--offline", "--no-audit", "--no-fund", "/there/made", at="/there/project")
    said = bare.run("node", "use.mjs", at="/there/project")
    assert '"text":"one\\n##.##\\n"' in said and '"text":"correct\\n"' in said, said
    bare.run("tsc", *STRICT, "typed.ts", at="/there/project")
