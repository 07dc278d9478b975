"""The texts of the packages that package.py makes."""
import posixpath
import re

LAUNCHER = """\
#!/usr/bin/python3
import os
import sys

HERE = os.path.dirname(os.path.dirname(os.path.realpath(__file__)))
sys.path[:1] = [os.path.join(HERE, "share", "puzzles")]
sys.argv[1:1] = ["{name}"]
from puzzles.__main__ import main  # noqa: E402

sys.exit(main())
"""


def entry_points(top):
    """Those of pyproject.toml, as a wheel has them: pip makes the commands of them."""
    table = (top / "python/pyproject.toml").read_text().partition("[project.scripts]\n")[2].partition("\n\n")[0]
    return "[console_scripts]\n" + re.sub(r' = "(.*)"', r" = \1", table) + "\n"


def linked(text, name, names):
    """The text of a document of this name. A link to a file that isn't among these names is left as its words."""
    folder = posixpath.dirname(name)

    def left(link):
        target = link[3].partition("#")[0]
        is_there = not target or ":" in target or posixpath.normpath(posixpath.join(folder, target)) in names
        return link[0] if is_there else link[2]
    return re.sub(r"(!?)\[((?:[^\[\]]|\[[^\[\]]*\])*)\]\(([^()\s]+)\)", left, text)


DESKTOP = """\
[Desktop Entry]
Type=Application
Name=Puzzles
Comment=Play Sudoku, Nonograms, Light Up and Tents
Exec=puzzles-page --open
Icon=puzzles
Terminal=true
Categories=Game;LogicGame;
Keywords=sudoku;nonogram;picross;akari;tents;logic;
"""
COPYRIGHT = """\
Format: https://www.debian.org/doc/packaging-manuals/copyright-format/1.0/

Files: *
Copyright: the owner of the repository
License: none-chosen
 The owner hasn't chosen a licence yet. Until then all rights are reserved.
"""
OVERRIDES = """\
# The program is the one that was proved and built, byte for byte, so that its digest can be compared.
puzzles: unstripped-binary-or-object *
"""
DEBIAN_CHANGELOG = """\
puzzles ({version}) unstable; urgency=medium

  * Built from the repository: CHANGELOG.md has its changes.

 -- {who}  {when}
"""
POSTINST = """\
#!/bin/sh
# Compiles the tools once, where Debian's Python is there; else each start of one would compile them anew.
set -e
if [ "$1" = configure ] && [ -z "$DPKG_ROOT" ] && command -v py3compile > /dev/null; then
    py3compile -p puzzles /usr/share/puzzles
fi
"""
PRERM = """\
#!/bin/sh
# What Python compiled, here or for a tool that root ran, goes with the package.
set -e
find "$DPKG_ROOT/usr/share/puzzles" -depth -type d -name __pycache__ -exec rm -r {} +
"""
SUMMARY = "solve, check, grade and generate logic puzzles"
CONTROL = f"""\
Package: puzzles
Version: {{version}}
Architecture: {{machine}}
Maintainer: {{who}}
Installed-Size: {{size}}
{{depends}}Recommends: python3 (>= 3.9), xdg-utils
Suggests: chromium, fonts-dejavu-core, sqlite3, python3-pil, sgt-puzzles
Section: utils
Priority: optional
Description: {SUMMARY}
 Of four games: Pattern (nonograms), Solo (sudoku), Light Up (Akari) and
 Tents. Puzzles are given by their game IDs, as Simon Tatham's Portable
 Puzzle Collection writes them. Each answer is proved: "one" means one
 solution among all grids.
 .
 With it come a page to play at (puzzles-page), scripts that make books for
 print (puzzles-book), keep collections (puzzles-collect) and read drawings
 and other formats, and a package for Python (import puzzles).
"""
METADATA = f"""\
Metadata-Version: 2.1
Name: puzzles
Version: {{version}}
Summary: {SUMMARY}
Requires-Python: >=3.9
Classifier: Operating System :: POSIX :: Linux
Classifier: Programming Language :: Python :: 3
Classifier: Typing :: Typed
Description-Content-Type: text/plain

The program `puzzles`, its tools for books, collections and the page, and the package `puzzles`, which asks it with types.
Games are Solo (sudoku), Pattern (nonograms), Light Up (Akari) and Tents, given by their game IDs. Each answer is proved.
`help(puzzles)` tells the rest.
"""
WHEEL = """\
Wheel-Version: 1.0
Generator: package.py
Root-Is-Purelib: false
Tag: {tag}
"""
