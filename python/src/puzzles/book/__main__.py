"""Makes a book of puzzles for print: a PDF, and beside it a table (CSV) with the seed, grade, ID and solution of each.

    book.py book.pdf                                        100 puzzles of all four games, easy, medium and hard
    book.py --title Sunday --paper letter --seed 500 --symmetric book.pdf solo:3x3:easy:12 solo:3x3:hard:12 tents:8x8:easy:6
    book.py --paper 6x9 --gutter 10 --right --bare --words usual --multiple 4 book.pdf solo:3x3:crossings:40 pattern:@fish.txt
    book.py --after first.csv second.pdf                    none of the puzzles of the first book
    book.py again.pdf @first.csv                            the puzzles of the first book, in its chapters

A chapter is GAME:SIZE:LEVEL:COUNT, or GAME:@FILE for the IDs of a file's lines; GAME:@FILE:TITLE calls it so. A book's table,
@TABLE or GAME:@TABLE, gives its chapters. Games are solo, pattern, lightup and tents. Levels are easy, medium and hard, as on
the page, and any; without a guess also houses and crossings of solo, and long of the others. Each puzzle has one solution,
which is proved. In a chapter of made puzzles they get harder; those of a file keep their order.
The same words make the same bytes, with the same program, browser and fonts.
What was made is kept in BOOK.pdf.part until the book is there, so a run that was stopped goes on by the same words.
It needs Debian's chromium and fonts-dejavu-core.
Statuses: 0; 2 words refused; 6 a fault of reading or writing; 7 a program isn't there or fails, or too few puzzles; 130 stopped.
"""
import sys
from typing import Callable, Dict, List, Mapping, Optional, Sequence, Tuple

from . import pages
from .chapters import Chapter, Made
from .journal import Journal
from .layout import check
from .._files import replace
from .._work import Bar, Program, begin
from ..collect.forms import form
from .making import Maker, fill
from .options import Asked, words
from .outputs import Entry, drawings, table
from .pdf import print_pdf
from .tables import check_table
from ..ids import empty, read

MOST_TOLD = 10  # puzzles that are turned ones of others


def entries_of(chapters: Sequence[Chapter], found: Sequence[Sequence[Made]]) -> List[Entry]:
    made = [(asked, one) for asked, some in zip(chapters, found) for one in some]
    return [Entry(number, asked, one, *one.puzzle(asked.game)) for number, (asked, one) in enumerate(made, 1)]


def build(asked: Asked, entries: Sequence[Entry], solve: Callable[[str, str], List[str]],
          solved_on: Optional[Mapping[int, int]] = None,
          contents: Sequence[pages.Listed] = ()) -> Tuple[pages.Book, Dict[int, int], List[pages.Listed]]:
    """The book; its contents and the pages of solutions are known after a first time."""
    book, texts = pages.Book(asked.title, asked.sheet, asked.texts), asked.texts
    listed: List[pages.Listed] = []
    pages.add_front(book, len(entries), asked.front, asked.first_page)
    pages.add_contents(book, contents, len(asked.games) + len(asked.chapters) + 1)
    for game in asked.games:
        if asked.begins_right:
            book.begin_right()
        is_crossed = any(entry.puzzle.is_crossed for entry in entries if entry.puzzle.game == game)
        listed.append(pages.Listed(pages.how(texts, game), "", pages.add_rules(book, game, solve, is_crossed)))
        for one in asked.chapters:
            some = [entry for entry in entries if entry.chapter is one]
            if one.game == game:
                pages.add_chapter(book, one, some, solved_on or {})
                numbers = pages.numbered(texts, [entry.number for entry in some])
                listed.append(pages.Listed(pages.heading(book, one, some[0].puzzle), numbers, some[0].page))
    if asked.begins_right:
        book.begin_right()
    listed.append(pages.Listed(texts["solutions"], "", len(book.pages) + 1))
    found = pages.add_solutions(book, entries)
    book.fill(asked.multiple, asked.least_pages)
    return book, found, listed


def check_sizes(asked: Asked) -> None:
    """Tells before anything is made of what doesn't fit the paper."""
    for one in asked.chapters:
        for puzzle in [read(one.game, text) for text in one.ids] or [empty(one.game, one.size)]:
            check(asked.sheet, puzzle)


def tell_turned(entries: Sequence[Entry]) -> None:
    """Tells of puzzles of files that are others turned or mirrored, or for Solo with other numbers."""
    first: Dict[Tuple[str, str], Entry] = {}
    told = 0
    for one in entries:
        if one.chapter.ids:
            other = first.setdefault((one.puzzle.game, form(one.puzzle.game, one.id)), one)
            told += other is not one
            if other is not one and told <= MOST_TOLD:
                print(f"puzzles {other.number} and {one.number} are alike but for turns, mirrors and names: {other.id} {one.id}",
                      file=sys.stderr)
    if told > MOST_TOLD:
        print(f"{told} puzzles of files are alike to others", file=sys.stderr)


def main() -> int:
    asked = words(__doc__)
    check_sizes(asked)
    beside = asked.book.with_suffix(".csv")
    check_table(beside)
    if asked.svg:
        asked.svg.mkdir(exist_ok=True)
    program = Program(asked.program, asked.seconds)
    journal = Journal(asked.book.with_name(f"{asked.book.name}.part"), program.path, {"symmetric": asked.is_symmetric})
    found = fill(Maker(program, asked.is_symmetric, journal), asked.chapters, asked.seed,
                 Bar("puzzles", sum(one.count for one in asked.chapters)))
    entries = entries_of(asked.chapters, found)
    tell_turned(entries)

    def solve(game: str, text: str) -> List[str]:
        return program.ask("solve", "--", game, text)[1:]

    _, solved_on, contents = build(asked, entries, solve)
    book, solved_on, _ = build(asked, entries, solve, solved_on, contents)
    replace({asked.book: print_pdf(book.html(), program), beside: table(entries, solved_on),
             **(drawings(asked.svg, entries) if asked.svg else {})})
    journal.remove()
    print(f"{asked.book}: {len(entries)} puzzle{'s' * (len(entries) > 1)}, {len(book.pages)} pages")
    return 0


def run() -> None:
    begin(main)


if __name__ == "__main__":
    run()
