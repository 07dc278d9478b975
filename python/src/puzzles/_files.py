"""Writes files wholly, or leaves what was there."""
import os
from pathlib import Path
from typing import Dict


def write(path: Path, content: bytes) -> None:
    """Writes a file. The fault of a full disk, which names no file, gets its name."""
    try:
        path.write_bytes(content)
    except OSError as fault:
        fault.filename = fault.filename or str(path)
        raise


def replace(contents: Dict[Path, bytes]) -> None:
    """Puts files in place, each a path and its bytes, once all are written."""
    new = {path: path.with_name(f"{path.name}.new") for path in contents}
    try:
        for path, content in contents.items():
            write(new[path], content)
        for path, written in new.items():
            os.replace(written, path)
    finally:
        for written in new.values():
            written.unlink(missing_ok=True)
