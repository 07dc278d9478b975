"""Writes the page as a folder of files that any web host serves, also `python3 -m http.server`: no server of its own is needed.

All that the program does is done in the browser, by its WebAssembly module. Take the module that a script of the folder library/
builds, or name another one by --module; its loader, puzzles.js, stands beside the module or in library/. A folder that this
script wrote before is replaced as a whole; another one that isn't empty is left alone. It exits with 2 if something is missing.
"""
import argparse
import base64
import hashlib
import json
import os
import shutil
import sys
import tempfile
from pathlib import Path
from typing import Dict

from .. import _places

LOADER, MODULE = _places.library("puzzles.js"), _places.library("out/puzzles.wasm")
FIRST_BYTES = b"\0asm"
EMPTY = 'const VERSION = "", FILES = {};'  # the line of service.js that is filled in


class Missing(Exception):
    """Something isn't there, or isn't what it should be."""


def found(module: Path) -> Dict[str, Path]:
    """The module and its loader."""
    if not module.is_file():
        raise Missing(f"{module}: no module (--module names it)")
    with module.open("rb") as opened:
        if opened.read(len(FIRST_BYTES)) != FIRST_BYTES:
            raise Missing(f"{module}: no WebAssembly module")
    for loader in (module.with_name("puzzles.js"), LOADER):
        if loader.is_file():
            return {"puzzles.wasm": module, "puzzles.js": loader}
    raise Missing(f"no loader: neither {module.with_name('puzzles.js')} nor {LOADER}")


def sources(module: Path) -> Dict[str, Path]:
    """Each file's name in the folder, and where it comes from. Those of alone/ take the place of web/'s."""
    files: Dict[str, Path] = {}
    for top in (_places.page("web"), _places.page("alone")):
        files.update({str(path.relative_to(top)): path for path in sorted(top.rglob("*")) if path.is_file()})
    return {**files, **found(module)}


def write(files: Dict[str, Path], folder: Path) -> None:
    """Copies the files, and tells the service worker their hashes."""
    hashes = {}
    for name, source in files.items():
        target = folder / name
        target.parent.mkdir(parents=True, exist_ok=True)
        shutil.copyfile(source, target)
        if name != "service.js":
            hashes[name] = base64.b64encode(hashlib.sha256(target.read_bytes()).digest()).decode()
    service = folder / "service.js"
    text = service.read_text()
    version = hashlib.sha256((json.dumps(hashes) + text).encode()).hexdigest()[:16]
    service.write_text(text.replace(EMPTY, f'const VERSION = "{version}", FILES = {json.dumps(hashes, indent=1)};'))


def replace(folder: Path, files: Dict[str, Path]) -> None:
    """Writes all beside the folder, and then puts it in the folder's place."""
    is_ours = (folder / "service.js").is_file() and (folder / "puzzles.wasm").is_file()
    if folder.exists() and not (folder.is_dir() and (is_ours or not any(folder.iterdir()))):
        raise Missing(f"{folder}: it is there already, and isn't a page that this script wrote")
    folder.parent.mkdir(parents=True, exist_ok=True)
    with tempfile.TemporaryDirectory(dir=folder.parent, prefix=".page.") as beside:
        fresh = Path(beside) / "new"
        fresh.mkdir()
        write(files, fresh)
        if folder.exists():
            folder.rename(Path(beside) / "old")
        fresh.rename(folder)


def main() -> None:
    parser = argparse.ArgumentParser(description=__doc__, formatter_class=argparse.RawDescriptionHelpFormatter)
    parser.add_argument("folder", metavar="FOLDER", help="what is written")
    parser.add_argument("--module", metavar="FILE", default=MODULE, help="the module (default library/out/puzzles.wasm)")
    words = parser.parse_args()
    try:
        files = sources(Path(os.path.abspath(words.module)))
        replace(Path(os.path.abspath(words.folder)), files)
    except Missing as fault:
        print(f"static.py: {fault}", file=sys.stderr)
        sys.exit(2)
    except OSError as fault:
        sys.exit(f"static.py: {fault}")
    print(f"{words.folder}: {len(files)} files")


run = main


if __name__ == "__main__":
    run()
