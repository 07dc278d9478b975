"""The pages of a book as HTML: a title, a page of rules for each game, puzzles, and solutions at the back."""
import html
import itertools
import pathlib
import string
from typing import Callable, Collection, Dict, List, Mapping, NamedTuple, Optional, Sequence, Set

from . import layout
from .chapters import Chapter
from .layout import Sheet, places, shelves, solved_cell
from .outputs import Entry
from .texts import Texts
from ..ids import Puzzle, Room, read, read_grid, svg

CONTENTS_HEIGHT = 7.2  # of a line, in millimetres
RULES_ROOM = 225  # millimetres of a page that has all rules of a game, if grades are told
BREAK = "<hr>"  # between two pages of a file
# Front matter is text and pictures: no script runs, and no other page comes in.
POLICY = ("""<meta http-equiv="Content-Security-Policy" """
          """content="default-src 'none'; style-src 'unsafe-inline'; img-src data: file:">""")
EXAMPLES = {"solo": "2x2:1b4i3_2a", "pattern": "5x5:2/4/4/4/2/1.1/5/5/3/1", "lightup": "5x5:2c0cBfB01c2a1B",
            "tents": "5x5:ca_bgdb,1,2,1,1,1,3,0,1,1,1"}
STYLE = pathlib.Path(__file__).resolve().with_name("book.css")


class Listed(NamedTuple):
    """A line of the contents."""
    name: str
    numbers: str  # of its puzzles
    page: int


class FirstPage(NamedTuple):
    """What the first page has besides its title and the number of puzzles; what is empty isn't there."""
    subtitle: str
    author: str
    picture: str  # an address that has all of it


class Book:
    """Pages by number, from 1 on. The first is a right one."""

    def __init__(self, title: str, sheet: Sheet, texts: Texts):
        self.title, self.sheet, self.texts = title, sheet, texts
        self.pages: List[str] = []
        self.heads: Set[str] = set()

    def add(self, words: str, foot: str = "", has_number: bool = True) -> int:
        number = len(self.pages) + 1
        end = f"<p class=foot><span>{foot}</span><span>{number}</span></p>" if number > 1 and has_number else ""
        side = "right" if number % 2 else "left"
        self.pages.append(f"<section id=page-{number} class={side}>{words}{end}</section>")
        return number

    def head(self, words: str, more: str = "") -> str:
        """The head of a page. It is a heading where its words come first, so that the outline has it once."""
        tag, end = ("p class=head", "p") if words in self.heads else ("h2", "h2")
        self.heads.add(words)
        return f"<{tag}>{words}{more and f' <small>{more}</small>'}</{end}>"

    def begin_right(self) -> None:
        """Leaves a left page blank, so that the next one is a right one."""
        if len(self.pages) % 2:
            self.add("", has_number=False)

    def fill(self, multiple: int, least: int) -> None:
        """Adds blank pages, so that their number is a multiple, and not below another number."""
        while len(self.pages) % multiple or len(self.pages) < least:
            self.add("", has_number=False)

    def html(self) -> str:
        paper = self.sheet.paper
        style = string.Template(STYLE.read_text(encoding="utf-8")).substitute(
            width=paper.width, height=paper.height, side=paper.side, inner=paper.side + self.sheet.gutter, text=paper.text,
            drop=paper.height / 5, room=self.sheet.height, top=layout.TOP, bottom=layout.BOTTOM, heading=layout.HEADING,
            gap=layout.GAP, solved_gap=layout.SOLVED_GAP, label=layout.LABEL, caption=layout.CAPTION)
        return (f'<!doctype html><html lang="{self.texts["language"]}"><meta charset="utf-8">{POLICY}'
                f"<title>{html.escape(self.title)}</title><style>{style}</style><body>{''.join(self.pages)}")

    def name(self, puzzle: Puzzle) -> str:
        return self.texts["names"]["solo x" if puzzle.is_crossed else puzzle.game]

    def drawing(self, puzzle: Puzzle, cells: Optional[Sequence[str]], cell: float, caption: str, below: str = "",
                is_small: bool = True) -> str:
        drawn = svg(puzzle, cells, cell, name=f"{html.unescape(self.name(puzzle))} {puzzle.size}", is_small=is_small)
        return f"<figure><figcaption>{caption}</figcaption>{drawn}{below}</figure>"


def add_front(book: Book, count: int, front: str, first: FirstPage) -> None:
    """The first page, and those of a file of HTML."""
    texts = book.texts
    counted = texts["one puzzle"] if count == 1 else texts["puzzles"].format(count=count)
    subtitle = f"<p class=subtitle>{html.escape(first.subtitle)}</p>" if first.subtitle else ""
    author = f"<p class=author>{html.escape(first.author)}</p>" if first.author else ""
    drawn = f'<img class=picture src="{first.picture}" alt="">' if first.picture else ""
    book.add(f"<h1>{html.escape(book.title)}</h1>{subtitle}<p class=count>{counted}</p>{drawn}{author}")
    for part in front.split(BREAK) if front else []:
        book.add(part, has_number=False)


def add_contents(book: Book, listed: Sequence[Listed], count: int) -> None:
    """Pages for so many lines of contents: heading, numbers of puzzles, page."""
    rows = [f"<tr><td><a href=#page-{page}>{name}</a><td>{numbers}<td><a href=#page-{page}>{page}</a>"
            for name, numbers, page in listed] or [""] * count
    step = int(book.sheet.height / CONTENTS_HEIGHT)
    for first in range(0, len(rows), step):
        book.add(f"{book.head(book.texts['contents'])}<table class=contents>{''.join(rows[first:first + step])}</table>")


def add_rules(book: Book, game: str, solve: Callable[[str, str], List[str]], is_crossed: bool) -> int:
    """The rules of a game, on one page or two, those of the diagonals where the book has some. `solve` gives the rows of the only
    solution of an ID."""
    texts, puzzle = book.texts, read(game, EXAMPLES[game])
    solved, cell = read_grid(puzzle, solve(game, EXAMPLES[game])), min(9, 45 / puzzle.width)
    head = book.head(how(texts, game), texts["other names"][game])
    drawn = "".join(book.drawing(puzzle, cells, cell, caption, is_small=False)
                    for cells, caption in ((None, texts["the puzzle"]), (solved, texts["its solution"])))
    all_rules = [*texts["rules"][game], *(texts["rules"]["solo x"] if is_crossed else [])]
    rules = (f"<ol>{''.join(f'<li>{rule}</li>' for rule in all_rules)}</ol>"
             f"<p class=part>{texts['example']}</p><div class=example>{drawn}</div>")
    begin = f"<p class=part>{texts['how to begin']}</p><p>{texts['beginnings'][game]}</p>"
    meanings = f"<p>{texts['one solution']}</p>" if book.sheet.is_bare else grades(texts, game)
    if book.sheet.is_bare or book.sheet.height > RULES_ROOM:
        return book.add(head + rules + begin + meanings)
    number = book.add(head + rules)
    book.add(book.head(how(texts, game)) + begin + meanings)
    return number


def how(texts: Texts, game: str) -> str:
    return texts["how"].format(name=texts["names"][game])


def grades(texts: Texts, game: str) -> str:
    """What the grades of a game mean."""
    search, meant = texts["grades"]["search"].format(trials=4), texts["meaning of a search"].format(trials=4)
    rows = [*((texts["grades"][name], words) for name, words in texts["meanings"][game].items()), (search, meant)]
    return (f"<p class=part>{texts['what the grades mean']}</p><p>{texts['one solution']} {texts['by the grade']}</p>"
            f"<table>{''.join(f'<tr><th>{name}<td>{words}' for name, words in rows)}</table>"
            f"<p>{texts['meanings of levels'][game]}</p>")


def heading(book: Book, asked: Chapter, puzzle: Puzzle) -> str:
    """What a chapter is called; the size of Solo counts blocks."""
    words = {"name": book.name(puzzle), "size": asked.size, "width": puzzle.width, "height": puzzle.height,
             "level": book.texts["levels"][asked.level], "file": html.escape(asked.title)}
    texts = book.texts
    whole = texts["heading of any"] if asked.level == "any" else texts["heading"]
    return (texts["heading of a file"] if asked.title else whole).format(**words)


def grade_of(texts: Texts, grade: str) -> str:
    word, _, trials = grade.partition(" ")
    return texts["grades"][word].format(trials=trials)


def add_chapter(book: Book, asked: Chapter, entries: Sequence[Entry], page_of_solution: Mapping[int, int]) -> None:
    """The pages of a chapter; each puzzle's page is kept in its entry."""
    texts, puzzle = book.texts, entries[0].puzzle
    at = places(book.sheet, [entry.puzzle for entry in entries], [entry.id for entry in entries])
    words, step = heading(book, asked, puzzle), at.across * at.down
    is_told = puzzle.block and "{size}" in texts["heading"] and not asked.title
    cells = texts["cells"].format(width=puzzle.width, height=puzzle.height) if is_told else ""
    rows = f"repeat({at.down},{book.sheet.height / at.down:.2f}mm)"
    style = f"grid-template:{rows}/repeat({at.across},1fr);padding-top:{at.spare / 2:.2f}mm"
    for first in range(0, len(entries), step):
        some = entries[first:first + step]
        for entry in some:
            entry.page = len(book.pages) + 1
        figures = "".join(figure(book, entry, at.cell) for entry in some)
        book.add(f"{book.head(words, cells)}<div class=puzzles style='{style}'>{figures}</div>",
                 foot(texts, {page_of_solution.get(entry.number, 0) for entry in some}))


def figure(book: Book, entry: Entry, cell: float) -> str:
    """A puzzle with its number, and what else stands beside it."""
    if book.sheet.is_bare:
        return book.drawing(entry.puzzle, None, cell, f"<b>{entry.number}</b>")
    width = max(Room(entry.puzzle, False).width * cell, 40)
    below = f"<p class=id style=max-width:{width:.1f}mm>{html.escape(entry.id)}</p>"
    return book.drawing(entry.puzzle, None, cell, f"<b>{entry.number}</b> · {grade_of(book.texts, entry.grade)}", below)


def foot(texts: Texts, pages: Collection[int]) -> str:
    """Where the solutions of a page are."""
    links = [f"<a href=#page-{page}>{page}</a>" for page in sorted(pages)]
    if len(links) == 1:
        return texts["page of solutions"].format(page=links[0])
    return texts["pages of solutions"].format(pages=f"{', '.join(links[:-1])} {texts['and']} {links[-1]}")


def numbered(texts: Texts, numbers: Sequence[int]) -> str:
    """The numbers of puzzles that follow one another."""
    return f"{numbers[0]}" if len(numbers) == 1 else texts["range"].format(first=numbers[0], last=numbers[-1])


def add_solutions(book: Book, entries: Sequence[Entry]) -> Dict[int, int]:
    """The solutions; gives the page of each by the puzzle's number."""
    cells = [solved_cell(book.sheet, entry.puzzle) for entry in entries]
    rooms = [Room(entry.puzzle, True) for entry in entries]
    sizes = [(room.width * cell, room.height * cell) for room, cell in zip(rooms, cells)]
    found: Dict[int, int] = {}
    for rows in shelves(book.sheet, sizes):
        drawn = [[book.drawing(entries[at].puzzle, entries[at].cells, cells[at], f"<b>{entries[at].number}</b>") for at in row]
                 for row in rows]
        there = [entries[at].number for at in itertools.chain(*rows)]
        number = book.add(book.head(book.texts["solutions"], numbered(book.texts, there))
                          + "".join(f"<div class=row>{''.join(row)}</div>" for row in drawn))
        found.update((one, number) for one in there)
    return found
