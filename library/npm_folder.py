#!/usr/bin/env python3
"""Puts the module for browsers into a folder that `npm install FOLDER` takes.

usage: library/npm_folder.py MODULE FOLDER     MODULE is puzzles.wasm, as library/build.py makes it

FOLDER gets puzzles.wasm, puzzles.js, its types, and `ended`, which makes calls in a worker that a clock ends. The version is that
of CHANGELOG.md. What else stands in FOLDER is left there. The status is 0, and 1 if a file can't be read or written.
"""
import argparse
import json
import pathlib
import re
import shutil
import sys

HERE = pathlib.Path(__file__).resolve().parent
CHANGES = HERE.parent / "CHANGELOG.md"


def fill(module, folder):
    """The folder of a module."""
    folder.mkdir(parents=True, exist_ok=True)
    for file in [*sorted((HERE / "npm").iterdir()), HERE / "puzzles.js"]:
        shutil.copyfile(file, folder / file.name)
    shutil.copyfile(module, folder / "puzzles.wasm")
    about = json.loads((HERE / "npm" / "package.json").read_text())
    about["version"] = re.search(r"^## (\d+\.\d+\.\d+)\b", CHANGES.read_text(), re.M)[1]
    (folder / "package.json").write_text(json.dumps(about, indent=2) + "\n")


def main():
    form = argparse.ArgumentParser(description=__doc__, formatter_class=argparse.RawDescriptionHelpFormatter)
    form.add_argument("module", type=pathlib.Path, metavar="MODULE")
    form.add_argument("folder", type=pathlib.Path, metavar="FOLDER")
    asked = form.parse_args()
    try:
        fill(asked.module, asked.folder)
    except OSError as fault:
        sys.exit(f"npm_folder.py: {fault.strerror}: {fault.filename}")


if __name__ == "__main__":
    main()
