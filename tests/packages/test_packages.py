"""The packages that packaging/package.py makes of a program.

They are made twice, of two clones at different paths, of the last commit, and compared. Each is installed in a folder of its
own, and there README's four examples, the tools, the page, the manual page and `import puzzles` are tried.
"""
import os
import pathlib
import re
import subprocess
import sys
import tarfile
import time
import urllib.error
import urllib.request

import pytest

from support.bench import DEBIAN, SECONDS, TOP, Bench
from puzzles._work import end

pytestmark = [pytest.mark.needs("git", "a commit", "dpkg", "dpkg-deb"), pytest.mark.xdist_group("packages")]
ANSWERS = """\
import puzzles, puzzles.ids
assert puzzles.solve("pattern", "5x1:1/1//1/1/2.2").grid == ("##.##",)
assert puzzles.grade("lightup", "3x3:aBBa1aBb").trials == 4
print(puzzles.program(), puzzles.__file__, puzzles.ids.written(puzzles.ids.read("solo", "2x2:__p_")))
"""
LEFT = "W: puzzles: copyright-without-copyright-notice"  # no licence is chosen


class Packages:
    """The packages of two clones of the last commit, made once."""

    def __init__(self, program, folder):
        self.bench, self.folder = Bench(program, folder), pathlib.Path(folder)
        self.commit = self.bench.good(["git", "-C", TOP, "rev-parse", "HEAD"]).strip()
        self.clones = [self.clone("one", "022", {}), self.clone("another place", "077", {"TZ": "Asia/Tokyo", "LC_ALL": "C"})]

    def clone(self, name, mask, more):
        """The packages of a clone of its own, whose files have other times and modes."""
        top = self.folder / name / "puzzles"
        words = f'umask {mask}; git clone -q --shared "$0" "$1" && git -C "$1" checkout -q "$2"'
        self.bench.good(["bash", "-c", words, TOP, top, self.commit])
        for path in top.rglob("*.md"):
            os.utime(path, (1, time.time() - len(name) * 100_000))
        out = self.folder / f"made by {name}"
        words = [top / "packaging/package.py", self.bench.program, out]
        self.bench.good(["bash", "-c", f'umask {mask}; exec "$@"', "bash", *words], **more)
        return out

    def one(self, pattern):
        """The path of the package with such a name."""
        return next(self.clones[0].glob(pattern))

    def unpacked(self, name, command):
        """A folder into which a command unpacks."""
        folder = self.folder / name
        if not folder.exists():
            folder.mkdir()
            self.bench.good([*command, folder])
        return folder

    def debian(self):
        """The folder of an installed Debian package: by dpkg, if this is root."""
        folder = self.folder / "debian"
        if folder.exists():
            return folder
        (folder / "var/lib/dpkg/updates").mkdir(parents=True)
        (folder / "var/lib/dpkg/info").mkdir()
        (folder / "var/lib/dpkg/status").touch()
        package = self.one("*.deb")
        if os.geteuid() == 0:
            self.bench.good(["dpkg", f"--root={folder}", "--force-depends", "--force-script-chrootless", "-i", package])
        else:
            self.bench.good(["dpkg-deb", "-x", package, folder])
        return folder

    def tarball(self):
        """The folder of the unpacked tarball, with a space in its name."""
        path = self.one("*.tar.gz")
        folder = self.unpacked("a folder", ["tar", "-xzf", path, "-C"])
        return next(folder.iterdir())


@pytest.fixture(scope="module")
def packages(program, tmp_path_factory):
    return Packages(program, tmp_path_factory.mktemp("packages"))


def test_same(packages):
    """two clones at different paths, with other times, modes and time zones, make the same bytes"""
    names = [sorted(path.name for path in folder.iterdir()) for folder in packages.clones]
    assert names[0] == names[1] and len(names[0]) == 3, f"other names: {names}"
    for name in names[0]:
        first, second = ((folder / name).read_bytes() for folder in packages.clones)
        assert first == second, f"{name}: other bytes"



def examples_of_readme():
    """Command lines and what they write, of README's four examples."""
    text = (TOP / "README.md").read_text().partition("## Four examples")[2].partition("\n## ")[0]
    for session in re.findall(r"```console\n(.*?)```", text, re.S):
        for part in re.split(r"^\$ ", session, flags=re.M)[1:]:
            command, _, output = part.partition("\n")
            yield command, output


def tried(packages, folder):
    """README's examples, by the program of a folder."""
    path = f"{folder}/bin:/usr/bin:/bin"
    count = 0
    for command, output in examples_of_readme():
        done = packages.bench.run(["bash", "-c", command], PATH=path)
        assert done.stdout == output, f"{command}: {done.stdout!r}, wanted {output!r}"
        count += 1
    assert count == 4, f"{count} examples in README"
    program = (folder / "bin/puzzles").read_bytes()
    assert program == packages.bench.program.read_bytes(), "another program than the one that was packed"
    for script in sorted((folder / "bin").glob("puzzles-*")):
        packages.bench.good([script, "--help"], PATH=path)
    return path


def serves(packages, folder, path):
    """The page of a folder answers, each file that it names too, and asks the program of the folder."""
    run = packages.bench.start([folder / "bin/puzzles-page", "--port", "0"])
    try:
        address = run.stdout.readline().strip()
        assert address, f"the page ended: {run.communicate()[1]}"
        for name in re.findall(r'(?:src|href)="([^":#]+)"', got(address)):
            assert got(address + name.removeprefix("/")) is not None, f"the page has no {name}"
    finally:
        end(run)
        run.communicate()


def got(address):
    try:
        with urllib.request.urlopen(address, timeout=SECONDS) as answer:
            return answer.read().decode("utf-8", "replace")
    except (urllib.error.URLError, ConnectionError):
        return None


@pytest.mark.needs("man", "desktop-file-validate")
def test_debian(packages):
    """dpkg installs the Debian package: examples, scripts, page, manual page, completions and `import puzzles` are there"""
    folder = packages.debian() / "usr"
    path = tried(packages, folder)
    serves(packages, folder, path)
    for name in ("puzzles", "puzzles-book", "puzzles-collect", "puzzles-ids"):
        found = packages.bench.good(["man", "-M", folder / "share/man", "-w", name]).strip()
        assert found.startswith(str(folder)), f"man finds {found}"
    text = packages.bench.good(["man", "-M", folder / "share/man", "puzzles"], MANWIDTH="100", MAN_KEEP_FORMATTING="")
    version = re.search(r"^## (\d+\.\d+\.\d+)", (TOP / "CHANGELOG.md").read_text(), re.M)[1]
    assert version in text and "EXIT STATUS" in text, f"no version {version} in the manual page"
    for name in ("bash-completion/completions/puzzles", "zsh/vendor-completions/_puzzles",
                 "fish/vendor_completions.d/puzzles.fish"):
        assert (folder / "share" / name).is_file(), f"no {name}"
    said = packages.bench.good([DEBIAN, "-c", ANSWERS], PATH=path, PYTHONPATH=str(folder / "lib/python3/dist-packages"))
    assert said.split()[0].startswith(str(folder)) and said.split()[-1] == "2x2:p", said
    packages.bench.good(["desktop-file-validate", folder / "share/applications/puzzles.desktop"])


@pytest.mark.needs("lintian")
def test_looked_at(packages):
    """lintian finds nothing in the Debian package but what is for want of a licence"""
    done = packages.bench.run(["lintian", "--no-tag-display-limit", "--allow-root", packages.one("*.deb")])
    left = [line for line in done.stdout.splitlines() if line.startswith(("E:", "W:")) and not line.startswith(LEFT)]
    assert not left, "\n".join(left)


def test_tarball(packages):
    """the tarball runs where it is unpacked, below a folder with a space: examples, scripts and page"""
    folder = packages.tarball()
    serves(packages, folder, tried(packages, folder))
    with tarfile.open(packages.one("*.tar.gz")) as archive:
        names = archive.getnames()
    assert all(name.startswith(names[0]) for name in names), f"not all is below {names[0]}"
    assert not [name for name in names if "__pycache__" in name], "what Python left behind is packed"


@pytest.mark.needs("import:ensurepip")
def test_wheel(packages):
    """pip installs the wheel: the program is on the path of its environment, and `import puzzles` finds it there"""
    folder = packages.folder / "environment"
    packages.bench.good([sys.executable, "-m", "venv", folder])
    python, package = folder / "bin/python", packages.one("*.whl")
    packages.bench.good([python, "-m", "pip", "install", "--no-index", "--disable-pip-version-check", "-q", package])
    tried(packages, folder)
    said = packages.bench.good([python, "-c", ANSWERS], PATH="/nowhere").split()
    assert said == [str(folder / "bin/puzzles"), said[1], "2x2:p"] and said[1].startswith(str(folder)), str(said)
    packages.bench.good([python, "-m", "pip", "uninstall", "-q", "-y", "puzzles"])
    assert not (folder / "bin/puzzles").exists(), "pip leaves the program there"


def test_removed(packages):
    """after the tools ran as root, and left what Python compiled, the package goes without a trace"""
    if os.geteuid() != 0:
        pytest.skip("dpkg removes for root alone")
    folder, bench = packages.folder / "removed", packages.bench
    for name in ("var/lib/dpkg/updates", "var/lib/dpkg/info"):
        (folder / name).mkdir(parents=True)
    (folder / "var/lib/dpkg/status").touch()
    words = ["dpkg", f"--root={folder}", "--force-depends", "--force-script-chrootless"]
    bench.good([*words, "-i", packages.one("*.deb")])
    bench.good([folder / "usr/bin/puzzles-book", "--help"], PYTHONDONTWRITEBYTECODE="")
    assert list((folder / "usr/share/puzzles").rglob("*.pyc")), "nothing was compiled"
    done = bench.run([*words, "-r", "puzzles"])
    assert done.returncode == 0 and "not empty" not in done.stderr, done.stderr
    left = [path for path in folder.rglob("*") if "var/lib/dpkg" not in str(path) and not path.is_dir()]
    assert not left and not (folder / "usr/share/puzzles").exists(), f"left: {left[:5]}"


def test_documents(packages):
    """each link of a document that is packed leads somewhere, and examples are beside it"""
    folder = packages.debian() / "usr/share/doc/puzzles"
    found = 0
    for path in folder.rglob("*.md"):
        for target in re.findall(r"\]\(([^()\s]+)\)", re.sub(r"```.*?```", "", path.read_text(), flags=re.S)):
            name, _, anchor = target.partition("#")
            if "://" not in target:
                there = path.parent / name if name else path
                assert there.exists(), f"{path.name}: {target}"
                found += 1
    assert found > 50 and (folder / "examples").is_dir() and not (folder / "docs/PROOF.md").exists(), f"{found} links"


def test_keywords(packages):
    """the menu's entry is found by what players call the games"""
    entry = (packages.debian() / "usr/share/applications/puzzles.desktop").read_text()
    assert {"sudoku", "nonogram", "akari"} <= set(re.search("^Keywords=(.*)$", entry, re.M)[1].split(";")), entry


def test_versions(packages):
    """of two commits of a day the later package is the newer one; a release wants its day and digest, and then a new head"""
    top, bench, out = packages.folder / "versions", packages.bench, packages.folder / "of versions"
    bench.good(["git", "clone", "-q", "--shared", TOP, top])
    script, changes = top / "packaging/package.py", top / "CHANGELOG.md"
    git = ["git", "-C", top, "-c", "user.name=a", "-c", "user.email=a@b"]
    made = []
    for seconds in (1_800_000_000, 1_800_000_001, 1_800_007_000):
        when = {"GIT_AUTHOR_DATE": f"{seconds} +0000", "GIT_COMMITTER_DATE": f"{seconds} +0000"}
        bench.good([*git, "commit", "-q", "--allow-empty", "-m", "One"], **when)
        names = bench.good([script, bench.program, out]).split()
        made.append([next(name for name in names if name.endswith(end_)) for end_ in (".deb", ".whl")])
    for (first, wheel), (second, other) in zip(made, made[1:]):
        bench.good(["dpkg", "--compare-versions", second.split("_")[1], "gt", first.split("_")[1]])
        assert re.search(r"dev(\d+)", other)[1] > re.search(r"dev(\d+)", wheel)[1], f"{wheel} {other}"
    number = re.search(r"^## (\d+\.\d+\.\d+), not released", changes.read_text(), re.M)[1]
    bench.good([*git, "tag", f"v{number}"])
    told = bench.run([script, bench.program, out])
    assert told.returncode == 7 and "the digest of its program: " in told.stderr, told.stderr
    digest = told.stderr.split()[-1]
    changes.write_text(changes.read_text().replace("not released\n", f"2027-01-15\n\nProgram: `{digest}`\n", 1))
    bench.good([*git, "commit", "-q", "-a", "-m", "Release"])
    bench.told([script, bench.program, out], 7, "wants a head for the next version")
    bench.good([*git, "tag", "-f", f"v{number}"])
    assert f"puzzles_{number}_" in bench.good([script, bench.program, out])


def test_pipe(packages):
    """where nobody reads on it ends with a sentence"""
    words = '"$@" | head -1 > /dev/null; exit ${PIPESTATUS[0]}'
    done = packages.bench.run(["bash", "-c", words, "bash", TOP / "packaging/package.py", packages.bench.program,
                               packages.folder / "piped"])
    assert (done.returncode, done.stderr) in [(6, "package.py: Broken pipe\n"), (0, "")], f"{done.returncode} {done.stderr}"


def test_faults(packages):
    """what is no program, a folder that can't be written, a full disk: one sentence, a status, and nothing half written"""
    script, bench = TOP / "packaging/package.py", packages.bench
    text = bench.folder / "text"
    text.write_text("no program")
    bench.told([script, text, bench.folder / "out"], 7, "no ELF program")
    cut = bench.folder / "cut"
    cut.write_bytes(bench.program.read_bytes()[:100])
    bench.told([script, cut, bench.folder / "out"], 7, "ELF tables")
    bench.told([script, bench.folder / "nowhere", bench.folder / "out"], 6, "nowhere")
    bench.told([script, bench.program, "/proc/out"], 6, "/proc/out")
    bench.told([script, bench.program, bench.folder / "out"], 7, "SOURCE_DATE_EPOCH", SOURCE_DATE_EPOCH="yesterday")
    disk = bench.small_disk("disk", "size=100k")
    if not disk:
        pytest.skip("this user may not mount, for a full disk")
    try:
        bench.told([script, bench.program, disk], 6, "No space left")
        assert not [path for path in disk.iterdir() if path.suffix != ".part"], "something half written has a final name"
    finally:
        bench.unmount(disk)
