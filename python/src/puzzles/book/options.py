"""The words of the command line of a book."""
import argparse
import base64
import dataclasses
import html
import pathlib
from typing import List, Optional

from .chapters import MOST_TITLE, Chapter, by_size, chapter, doubles
from .layout import LEAST_CELL, Sheet, paper
from .pages import FirstPage
from .tables import last_seed
from .texts import Texts, load
from .._work import REFUSED, Fault

DEFAULT = ["solo:3x3:easy:18", "solo:3x3:medium:12", "solo:3x3:hard:12", "pattern:10x10:easy:8", "pattern:15x15:long:6",
           "pattern:20x20:long:4", "lightup:7x7:easy:6", "lightup:10x10:medium:6", "lightup:10x10:hard:6", "tents:8x8:easy:6",
           "tents:10x10:medium:8", "tents:10x10:hard:8"]
MOST_GUTTER, MOST_MULTIPLE, MOST_PAGES, MOST_FRONT = 30, 64, 2000, 20_000_000
CELLS = 3.0, 20.0  # millimetres that the least cell may have
PICTURES = {b"\x89PNG": "png", b"\xff\xd8\xff": "jpeg", b"<svg": "svg+xml", b"<?xml": "svg+xml"}  # by what they begin with
USAGE = "%(prog)s [-h] [OPTION ..] BOOK.pdf [CHAPTER ..]"


@dataclasses.dataclass(frozen=True)
class Asked:
    """What the words of the command line ask for."""
    book: pathlib.Path
    chapters: List[Chapter]
    games: List[str]
    title: str
    first_page: FirstPage
    texts: Texts
    front: str
    sheet: Sheet
    begins_right: bool
    multiple: int
    least_pages: int
    svg: Optional[pathlib.Path]
    seed: int
    is_symmetric: bool
    program: str
    seconds: float


def options(about: Optional[str]) -> argparse.ArgumentParser:
    form = argparse.ArgumentParser(description=about, formatter_class=argparse.RawDescriptionHelpFormatter, usage=USAGE)
    form.add_argument("--title", help="on the first page (Puzzles)")
    form.add_argument("--subtitle", default="", help="below the title")
    form.add_argument("--author", default="", help="at the foot of the first page")
    form.add_argument("--picture", type=pathlib.Path, metavar="FILE", help="PNG, JPEG or SVG, on the first page")
    form.add_argument("--paper", type=paper, default="A4", metavar="P",
                      help="the size to which it is cut (A4): A4, A5, letter, in inches 8x10, 7x10, 6x9, 5.5x8.5, 5x8, "
                           "8.5x8.5, or its width and height in mm, as 170x240")
    form.add_argument("--gutter", type=float, default=0, metavar="MM", help="more margin where the pages are bound (0)")
    form.add_argument("--right", action="store_true", help="the rules of a game, and the solutions, begin on a right page")
    form.add_argument("--multiple", type=int, default=1, metavar="N", help="blank pages at the end, for a multiple of N pages")
    form.add_argument("--least-pages", type=int, default=1, metavar="N", help="blank pages at the end, for N pages at least")
    form.add_argument("--by-size", action="store_true", help="a chapter of a file becomes one for each size of its puzzles")
    form.add_argument("--bare", action="store_true", help="neither grade nor ID beside a puzzle")
    form.add_argument("--large", action="store_true", help="large print: one puzzle a page, with cells of up to 22 mm")
    form.add_argument("--least-cell", type=float, default=LEAST_CELL, metavar="MM", help=f"of a puzzle ({LEAST_CELL:g})")
    form.add_argument("--words", metavar="FILE", help="the book's texts: usual (sudoku, nonogram), german, or a file of JSON")
    form.add_argument("--front", type=pathlib.Path, metavar="HTML", help="pages behind the title; <hr> stands between two")
    form.add_argument("--svg", type=pathlib.Path, metavar="FOLDER", help="a drawing of each puzzle and solution too")
    form.add_argument("--seed", type=int, default=1, help="the first seed (1)")
    form.add_argument("--after", type=pathlib.Path, action="append", default=[], metavar="CSV",
                      help="the table of an earlier book: seeds begin behind its own, so none of its puzzles comes again")
    form.add_argument("--symmetric", action="store_true", help="the givens of Solo look the same upside down")
    form.add_argument("--program", default="puzzles", help="where `puzzles` is (puzzles, on the path)")
    form.add_argument("--seconds", type=float, default=300, help="the most that one call may take (300)")
    form.add_argument("book", nargs="?", type=pathlib.Path, metavar="BOOK.pdf", help="the PDF to be written")
    form.add_argument("chapters", nargs="*", type=chapter, metavar="CHAPTER")
    return form


def words(about: Optional[str]) -> Asked:
    """The words, checked. `about` is the text of --help."""
    form = options(about)
    given = form.parse_intermixed_args()
    if not given.book:
        form.error("say what to write, as book.pdf")
    seed: int = max([given.seed, *(last_seed(path) + 1 for path in given.after)])
    if not 0 <= seed < 2**63 or not 0 < given.seconds <= 86400 or given.book.suffix != ".pdf":
        form.error("a seed is 0 to 9223372036854775807, a clock at most 86400 seconds, and the book's name ends in .pdf")
    if not 0 <= given.gutter <= MOST_GUTTER or not 1 <= given.multiple <= MOST_MULTIPLE:
        form.error(f"a gutter has at most {MOST_GUTTER} mm, and a multiple is 1 to {MOST_MULTIPLE}")
    if not 1 <= given.least_pages <= MOST_PAGES:
        form.error(f"the least pages are 1 to {MOST_PAGES}")
    texts = load(given.words)
    title: str = html.unescape(texts["title"]) if given.title is None else given.title
    if max(map(len, (title, given.subtitle, given.author))) > MOST_TITLE:
        form.error(f"a title, a subtitle and an author have at most {MOST_TITLE} letters")
    if not CELLS[0] <= given.least_cell <= CELLS[1]:
        form.error("the least cell has {:g} to {:g} mm".format(*CELLS))
    chapters: List[Chapter] = [one for some in given.chapters or map(chapter, DEFAULT) for one in some]
    if fault := doubles(chapters):
        form.error(fault)
    if given.by_size:
        chapters = [part for one in chapters for part in by_size(one)]
    games = list(dict.fromkeys(one.game for one in chapters))
    front = read_front(given.front) if given.front else ""
    picture = read_picture(given.picture) if given.picture else ""
    return Asked(book=given.book, chapters=sorted(chapters, key=lambda one: games.index(one.game)), games=games, title=title,
                 first_page=FirstPage(given.subtitle, given.author, picture), texts=texts, front=front,
                 sheet=Sheet(given.paper, given.gutter, given.bare, given.large, given.least_cell), begins_right=given.right,
                 multiple=given.multiple, least_pages=given.least_pages, svg=given.svg, seed=seed, is_symmetric=given.symmetric, program=given.program,
                 seconds=given.seconds)


def read_front(path: pathlib.Path) -> str:
    with open(path, "rb") as file:
        content = file.read(MOST_FRONT + 1)
    try:
        if len(content) > MOST_FRONT:
            raise ValueError
        return content.decode()
    except ValueError:
        raise Fault(f"{path} is no text in UTF-8 of at most {MOST_FRONT:,} bytes", REFUSED) from None


def read_picture(path: pathlib.Path) -> str:
    """A picture as an address that has all of it."""
    with open(path, "rb") as file:
        content = file.read(MOST_FRONT + 1)
    kind = next((kind for begin, kind in PICTURES.items() if content.startswith(begin)), None)
    if not kind or len(content) > MOST_FRONT:
        raise Fault(f"{path} is no PNG, JPEG or SVG of at most {MOST_FRONT:,} bytes", REFUSED)
    return f"data:image/{kind};base64,{base64.b64encode(content).decode()}"
