"""Prints HTML as a PDF by Debian's chromium, without the time of its making."""
import contextlib
import os
import pathlib
import re
import shutil
import tempfile
from typing import Iterator

from .._files import write
from .._work import DISK, Fault, Program

BROWSER = "chromium"
DATE = re.compile(rb"(/(?:Creation|Mod)Date \(D:)\d{14}")
OPTIONS = ("--headless", "--disable-gpu", "--no-first-run", "--disable-extensions", "--disable-background-networking",
           "--no-pdf-header-footer", "--generate-pdf-document-outline")


@contextlib.contextmanager
def temporary() -> Iterator[str]:
    """A folder that goes away, also where a browser that was killed still writes into it."""
    folder = tempfile.mkdtemp()
    try:
        yield folder
    finally:
        shutil.rmtree(folder, ignore_errors=True)


def print_pdf(page: str, program: Program) -> bytes:
    """The bytes of the PDF. The same page gives the same bytes; `program` runs the browser, and can stop it."""
    browser = shutil.which(BROWSER)
    if not browser:
        raise Fault("no chromium, which prints the book: apt-get install chromium")
    with temporary() as folder:
        source, target = pathlib.Path(folder, "book.html"), pathlib.Path(folder, "book.pdf")
        write(source, page.encode())
        root = ["--no-sandbox"] if os.geteuid() == 0 else []  # as root it begins in no other way
        words = [browser, *OPTIONS, *root, f"--user-data-dir={folder}/profile", f"--print-to-pdf={target}", source.as_uri()]
        _, status = program.run(words)
        made = target.read_bytes() if target.exists() else b""
        if status:
            how = f"by signal {-status}" if status < 0 else f"with status {status}"
            raise Fault(f"chromium ended {how} and wrote no PDF")
        if not made.startswith(b"%PDF-") or not made.rstrip().endswith(b"%%EOF"):
            raise Fault(f"chromium wrote no whole PDF: is the disk of {folder} full?", DISK)  # it ends with 0 all the same
        return DATE.sub(rb"\g<1>20000101000000", made)
