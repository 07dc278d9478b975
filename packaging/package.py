#!/usr/bin/env python3
"""Packs a built program with its manual page, completions, page, examples and documents, for those who have no kit.

    packaging/package.py crates/puzzles/out/puzzles FOLDER

makes three files in FOLDER, and prints the SHA-256 digest of each and of the program: a Debian package, a tarball for
~/.local, and a wheel for pip, which has the program and `import puzzles`. Nothing but Python and git is needed.

The same program and commit make the same bytes: what git tracks is packed, and times are SOURCE_DATE_EPOCH, or else the
commit's. The version is that of CHANGELOG.md, with the commit if it has no tag. The oldest glibc that the program runs with is
read out of it. DEBFULLNAME and DEBEMAIL name who packs it.
Statuses: 0; 2 words refused; 6 a fault of reading or writing; 7 PROGRAM can't be packed, or git fails.
"""
import argparse
import dataclasses
import hashlib
import os
import pathlib
import re
import subprocess
import sys
import time

from package_elf import Elf
from package_files import File, deb, squeezed, tar, wheel
import package_texts as texts

TOP = pathlib.Path(__file__).resolve().parent.parent
MACHINES = {62: ("amd64", "x86_64"), 183: ("arm64", "aarch64")}  # as Debian and as Linux name them
GIT_SECONDS = 60
UNRELEASED = "not released"  # in a head of CHANGELOG.md
SOURCES = "python/src/puzzles/"
COMMANDS = ("book", "collect", "convert", "drawing", "ids", "page", "page-static")
COMPLETIONS = {"puzzles.bash": "bash-completion/completions/puzzles", "_puzzles": "zsh/vendor-completions/_puzzles",
               "puzzles.fish": "fish/vendor_completions.d/puzzles.fish"}
# Documents for who has no sources. Others tell of these.
DOCUMENTS = ("README.md", "CHANGELOG.md", *(f"docs/{name}" for name in (
    "USE.md", "FORMATS.md", "RULES.md", "BOOKS.md", "COLLECTIONS.md", "page.png", "page-phone.png", "book-puzzles.png",
    "book-rules.png", "book-solutions.png")))
OWN_MANUALS = ("book", "collect")
SHARE, DOC, MANUAL = "share/puzzles/puzzles", "share/doc/puzzles", "share/man/man1"


class Wrong(Exception):
    """One sentence, for status 7."""


@dataclasses.dataclass(frozen=True)
class Release:
    """What is packed: the program, what it needs, and the state of the repository."""
    program: bytes
    elf: Elf
    number: str  # of CHANGELOG.md
    commit: str  # "" where it has a tag of this number
    seconds: int  # the time of all files

    @property
    def moment(self):
        """It rises from commit to commit, so that a later package is never taken for an older one."""
        return time.strftime("%Y%m%d%H%M%S", time.gmtime(self.seconds))

    @property
    def debian(self):
        return f"{self.number}~{self.moment}.{self.commit}" if self.commit else self.number

    @property
    def python(self):
        return f"{self.number}.dev{self.moment}+{self.commit}" if self.commit else self.number

    @property
    def machines(self):
        return MACHINES[self.elf.machine]


def git(*words):
    try:
        return subprocess.run(["git", "-C", TOP, *words], capture_output=True, text=True, check=True, timeout=GIT_SECONDS).stdout
    except (subprocess.SubprocessError, FileNotFoundError) as fault:
        raise Wrong(f"git {words[0]} fails in {TOP}: {getattr(fault, 'stderr', None) or fault}".strip()) from None


def release(path):
    """Of the program at a path."""
    program = path.read_bytes()
    try:
        elf = Elf(program)
    except ValueError as fault:
        raise Wrong(f"{path}: {fault}") from None
    if elf.machine not in MACHINES:
        raise Wrong(f"{path} is for another machine than {', '.join(name for _, name in MACHINES.values())}")
    number, date, *changes = re.search(r"^## (\d+\.\d+\.\d+), (.+)\n([^#]*)", (TOP / "CHANGELOG.md").read_text(), re.M).groups()
    commit, seconds = git("log", "-1", "--format=%h %ct", "--abbrev=8").split()
    tag, digest = f"v{number}", hashlib.sha256(program).hexdigest()
    is_tagged = tag in git("tag", "--points-at", "HEAD").split()
    if not is_tagged and git("tag", "--list", tag):
        raise Wrong(f"{number} is released, as the tag {tag} says: CHANGELOG.md wants a head for the next version")
    if is_tagged and (date == UNRELEASED or digest not in changes[0]):
        raise Wrong(f"CHANGELOG.md wants the day of {number} in its head, and below it the digest of its program: {digest}")
    epoch = os.environ.get("SOURCE_DATE_EPOCH", seconds)
    if not epoch.isdecimal():
        raise Wrong(f"SOURCE_DATE_EPOCH is no number of seconds: {epoch}")
    return Release(program, elf, number, "" if is_tagged else commit, int(epoch))


def tracked(folder):
    """Path and content of each file that git tracks in a folder, as they stand there."""
    for name in git("ls-files", "-z", "--", folder).split("\0")[:-1]:
        path = TOP / name
        yield File(name, path.read_bytes(), os.access(path, os.X_OK))


def package():
    """The package `puzzles`, with the page that its server has."""
    for file in tracked(SOURCES):
        yield dataclasses.replace(file, name=file.name[len(SOURCES):])
    for file in [*tracked("page/web"), *tracked("page/alone")]:
        yield file


def documents():
    """Documents and examples. Links in them to what isn't packed are left as words."""
    files = [file for file in [*tracked("README.md"), *tracked("CHANGELOG.md"), *tracked("docs")] if file.name in DOCUMENTS]
    files += tracked("examples")
    names = {file.name for file in files}
    names |= {folder for name in names for folder in map(str, pathlib.PurePosixPath(name).parents)}
    for file in files:
        text = texts.linked(file.content.decode(), file.name, names).encode() if file.name.endswith(".md") else file.content
        yield dataclasses.replace(file, name=f"{DOC}/{file.name}", content=text)


def tree(one):
    """What is installed below /usr or ~/.local."""
    inside = list(package())
    yield File("bin/puzzles", one.program, True)
    for name in ("puzzles", *(f"puzzles-{name}" for name in OWN_MANUALS)):
        yield File(f"{MANUAL}/{name}.1.gz", squeezed((TOP / f"docs/{name}.1").read_bytes()))
    for name in COMMANDS:
        yield File(f"bin/puzzles-{name}", texts.LAUNCHER.format(name=name).encode(), True)
        if name not in OWN_MANUALS:
            yield File(f"{MANUAL}/puzzles-{name}.1.gz", target="puzzles.1.gz")
    for name, place in COMPLETIONS.items():
        yield File(f"share/{place}", (TOP / "packaging/completions" / name).read_bytes())
        if name != "_puzzles":  # bash and fish look for a file of the command's name
            for tool in COMMANDS:
                folder, file = place.rsplit("/", 1)
                yield File(f"share/{folder}/{file.replace('puzzles', f'puzzles-{tool}', 1)}", target=file)
    for file in inside:
        yield dataclasses.replace(file, name=f"{SHARE}/{file.name}")
    yield from documents()
    icon = next(file.content for file in inside if file.name == "page/web/icon.svg")
    yield File("share/icons/hicolor/scalable/apps/puzzles.svg", icon)


def about(one):
    """Who packs it, and Debian's list of changes."""
    when = time.strftime("%a, %d %b %Y %H:%M:%S +0000", time.gmtime(one.seconds))
    who = f"{os.environ.get('DEBFULLNAME', 'Nobody')} <{os.environ.get('DEBEMAIL', 'nobody@example.invalid')}>"
    return who, texts.DEBIAN_CHANGELOG.format(version=one.debian, who=who, when=when)


def debian(one, files):
    """The Debian package; Python finds `import puzzles` by a link."""
    who, changes = about(one)
    more = [File(f"{DOC}/changelog.gz", squeezed(changes.encode())),
            File(f"{DOC}/copyright", texts.COPYRIGHT.encode()),
            File("share/applications/puzzles.desktop", texts.DESKTOP.encode()),
            File("share/lintian/overrides/puzzles", texts.OVERRIDES.encode()),
            File("lib/python3/dist-packages/puzzles", target=f"../../../{SHARE}")]
    files = [dataclasses.replace(file, name=f"usr/{file.name}") for file in [*files, *more]]
    needs = [f"libc6 (>= {'.'.join(map(str, one.elf.glibc))})"] if one.elf.glibc else []
    needs += ["libgcc-s1"] if "libgcc_s.so.1" in one.elf.libraries else []
    depends = f"Depends: {', '.join(needs)}\n" if needs else ""
    size = sum(len(file.content) for file in files) // 1024 + 1
    control = texts.CONTROL.format(version=one.debian, machine=one.machines[0], who=who, size=size, depends=depends)
    return f"puzzles_{one.debian}_{one.machines[0]}.deb", deb(
        control, files, one.seconds, {"postinst": texts.POSTINST, "prerm": texts.PRERM})


def tarball(one, files):
    """To be unpacked anywhere, as into ~/.local: nothing in it is a place of its own."""
    name = f"puzzles-{one.debian.replace('~', '-')}-linux-{one.machines[1]}"
    return f"{name}.tar.gz", squeezed(tar(files, one.seconds, f"{name}/"))


def python(one):
    """The wheel: the program as a script, and the package `puzzles`."""
    info = f"puzzles-{one.python}.dist-info"
    system = "manylinux_{}_{}".format(*one.elf.glibc) if one.elf.glibc else "manylinux_2_17"
    tag = f"py3-none-{system}_{one.machines[1]}"
    files = [File(f"puzzles-{one.python}.data/scripts/puzzles", one.program, True),
             *(dataclasses.replace(file, name=f"puzzles/{file.name}") for file in package()),
             File(f"{info}/entry_points.txt", texts.entry_points(TOP).encode()),
             File(f"{info}/METADATA", texts.METADATA.format(version=one.python).encode()),
             File(f"{info}/WHEEL", texts.WHEEL.format(tag=tag).encode())]
    return f"puzzles-{one.python}-{tag}.whl", wheel(files, info, one.seconds)


def write(folder, packages):
    """Puts packages into a folder, each whole or not at all, and prints their digests."""
    folder.mkdir(parents=True, exist_ok=True)
    for name, content in packages:
        part = folder / f"{name}.part"
        part.write_bytes(content)
        part.replace(folder / name)
        print(f"{hashlib.sha256(content).hexdigest()}  {name}", flush=True)


def main():
    form = argparse.ArgumentParser(description=__doc__, formatter_class=argparse.RawDescriptionHelpFormatter)
    form.add_argument("program", type=pathlib.Path)
    form.add_argument("folder", type=pathlib.Path)
    asked = form.parse_args()
    one = release(asked.program)
    files = list(tree(one))
    write(asked.folder, [debian(one, files), tarball(one, files), python(one)])
    print(f"{hashlib.sha256(one.program).hexdigest()}  puzzles, the program")
    needs = [*one.elf.libraries, *(["glibc {}.{}".format(*one.elf.glibc)] if one.elf.glibc else [])]
    print(f"needs {', '.join(needs) or 'no library'}")
    return 0


def ended(work):
    """Ends a script with its status, or with one sentence and a status."""
    name = pathlib.Path(sys.argv[0]).name
    try:
        sys.exit(work())
    except Wrong as fault:
        print(f"{name}: {fault}", file=sys.stderr)
        sys.exit(7)
    except OSError as fault:
        print(": ".join(filter(None, [name, fault.strerror, fault.filename and str(fault.filename)])), file=sys.stderr)
        os.dup2(os.open(os.devnull, os.O_WRONLY), 1)  # what is left for a pipe that nobody reads
        sys.exit(6)


if __name__ == "__main__":
    ended(main)
