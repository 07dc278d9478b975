"""The chapters of a book: what they ask for."""
import argparse
import dataclasses
import pathlib
from typing import Dict, List, Optional, Sequence, Tuple, Union

from .levels import LEVELS, OF_OTHERS, OF_SOLO
from .._work import Fault
from .tables import rows_of
from ..ids import GAMES, Puzzle, Refused, empty, lines, read, read_grid, written

MOST_PUZZLES, MOST_TITLE = 5000, 200
RANKS = ("singles", "lines", "local", "houses", "crossings", "search")  # of grades, the easier first
MOST_EASY_BY_SEED = 9  # cells a side
Seed = Union[int, str]  # empty, if there is none


@dataclasses.dataclass(frozen=True)
class Chapter:
    """`ids` has the puzzles of a file, and `seeds` theirs, if it is a book's table; `title` is what a chapter of a file is called.
    """
    game: str
    size: str
    level: str
    count: int
    ids: Tuple[str, ...] = ()
    seeds: Tuple[Seed, ...] = ()
    title: str = ""
    path: str = ""

    def is_large_and_easy(self) -> bool:
        """Whether seeds seldom give a Solo of this level, since `generate` takes clues away as long as sets do for the rest."""
        return self.game == "solo" and self.level == "easy" and empty(self.game, self.size).width > MOST_EASY_BY_SEED

    def is_by_effort(self) -> bool:
        """Whether the level is a half of more puzzles: games with one rule set have no other measure."""
        return self.level in OF_OTHERS

    def needed(self) -> int:
        """How many puzzles have to be made."""
        return self.count * (2 if self.is_by_effort() else 1)

    def chosen(self, made: "List[Made]") -> "List[Made]":
        """The puzzles of the chapter, of those that had to be made, the easier first."""
        if self.is_by_effort():
            made = sorted(made, key=lambda one: (-one.effort, int(one.seed)))[:self.count]
        return sorted(made, key=hardness)


@dataclasses.dataclass(frozen=True)
class Made:
    """A puzzle; one of a file has no seed."""
    seed: Seed
    id: str
    answer: List[str]
    grade: str
    effort: float

    def puzzle(self, game: str) -> Tuple[Puzzle, List[str]]:
        """The puzzle, and the signs of its solution."""
        puzzle = read(game, self.id)
        return puzzle, read_grid(puzzle, self.answer)


def hardness(one: Made) -> Tuple[int, int, float, int]:
    """What a puzzle is sorted by: its rule set, its trials, the length of its deduction."""
    word, _, trials = one.grade.partition(" ")
    return RANKS.index(word), int(trials or 0), one.effort, int(one.seed)


def ids_of(game: str, path: pathlib.Path, given: Sequence[bytes]) -> Tuple[str, ...]:
    """The written IDs of a file, of what it has for them."""
    found: Dict[str, int] = {}
    for number, text in enumerate(given, 1):
        try:
            one = written(read(game, text))
        except Refused as fault:
            raise argparse.ArgumentTypeError(f"{path}: ID {number} is refused: {fault}") from None
        if one in found:
            raise argparse.ArgumentTypeError(f"{path}: ID {number} is the puzzle of ID {found[one]} again")
        found[one] = number
    return tuple(found)


def of_lines(game: str, path: pathlib.Path, title: str) -> List[Chapter]:
    """The chapter of a file with an ID in each line, or of the IDs of a game in a book's table."""
    if path.suffix == ".csv":
        given = [row["id"].encode() for row in rows_of(path) if row["game"] == game]
    else:
        with open(path, "rb") as file:
            given = [line for line in lines(file) if line.strip()]
    ids = ids_of(game, path, given)
    if not 1 <= len(ids) <= MOST_PUZZLES:
        raise argparse.ArgumentTypeError(f"{path} has {len(ids)} puzzles of {game}, and a chapter 1 to {MOST_PUZZLES}")
    return [Chapter(game, "", "any", len(ids), ids, title=title or path.stem, path=str(path))]


def of_table(path: pathlib.Path, games: Sequence[str]) -> List[Chapter]:
    """The chapters of a book's table, as that book had them; of some games."""
    found: Dict[Tuple[str, str, str, str], List[Dict[str, str]]] = {}
    for row in rows_of(path):
        title = row.get("chapter") or ""
        if row["game"] in games:
            found.setdefault((row["game"], "" if title else row["size"], row["level"], title), []).append(row)
    if not found:
        raise argparse.ArgumentTypeError(f"{path} has 0 puzzles of {' and '.join(games)}, and a chapter 1 to {MOST_PUZZLES}")
    made, seeds = [], {row["id"]: row["seed"] for rows in found.values() for row in rows}
    for (game, size, level, title), rows in found.items():
        ids = ids_of(game, path, [row["id"].encode() for row in rows])
        made.append(Chapter(game, size, level if level in LEVELS else "any", len(ids), ids,
                            tuple(seed_of(path, seeds.get(text, "")) for text in ids), title, str(path)))
    return made


def seed_of(path: pathlib.Path, text: str) -> Seed:
    if text and not (text.isascii() and text.isdecimal()):
        raise argparse.ArgumentTypeError(f"{path} has a seed that is no number")
    return int(text) if text else ""


def of_file(games: Sequence[str], name: str) -> List[Chapter]:
    """The chapters of a file. Behind its name and a colon may stand what its chapter is called."""
    path, title = pathlib.Path(name), ""
    if ":" in name and not path.exists():
        name, _, title = name.rpartition(":")
        path = pathlib.Path(name)
    if len(title) > MOST_TITLE:
        raise argparse.ArgumentTypeError(f"the title of a chapter has at most {MOST_TITLE} letters")
    try:
        if path.suffix == ".csv" and not title:
            return of_table(path, games)
        if len(games) > 1:
            raise argparse.ArgumentTypeError(f"@{name} is no table of a book: say the game, as solo:@{name}")
        return of_lines(games[0], path, title)
    except OSError as fault:
        raise argparse.ArgumentTypeError(f"{path}: {fault.strerror}") from None
    except Fault as fault:
        raise argparse.ArgumentTypeError(str(fault)) from None


def by_size(one: Chapter) -> List[Chapter]:
    """A chapter as it is; that of a file as one for each size of its puzzles, the smaller first, whose title has the size."""
    sizes: Dict[Tuple[int, int], List[str]] = {}
    for text in one.ids:
        puzzle = read(one.game, text)
        sizes.setdefault((puzzle.width, puzzle.height), []).append(text)
    if len(sizes) < 2:
        return [one]
    seeds = dict(zip(one.ids, one.seeds))
    return [dataclasses.replace(one, count=len(ids), ids=tuple(ids), seeds=tuple(seeds[text] for text in ids if text in seeds),
                                title=f"{one.title}, {width}×{height}")
            for (width, height), ids in sorted(sizes.items(), key=lambda item: (item[0][0] * item[0][1], item[0]))]


def doubles(chapters: Sequence[Chapter]) -> Optional[str]:
    """A puzzle that stands in two files, or twice in a list of files; nothing if there is none."""
    told: Dict[Tuple[str, str], Chapter] = {}
    for one in chapters:
        for text in one.ids:
            if told.setdefault((one.game, text), one) is not one:
                return f"{told[one.game, text].path} and {one.path} have the same puzzle: {text}"
    return None


def chapter(word: str) -> List[Chapter]:
    """The chapters of GAME:SIZE:LEVEL:COUNT, GAME:@FILE or @TABLE, as a word of the command line."""
    game, at, name = word.partition(":@")
    if at and game in GAMES:
        return of_file((game,), name)
    if word.startswith("@"):
        return of_file(GAMES, word[1:])
    game, size, level, count, *more = [*word.split(":"), "", "", "", ""][:max(4, word.count(":") + 1)]
    is_count = count.isdecimal() and count.isascii() and 1 <= int(count[:5]) <= MOST_PUZZLES
    if game not in GAMES or level not in LEVELS or not is_count or more:
        raise argparse.ArgumentTypeError(
            f"{word} isn't GAME:SIZE:LEVEL:COUNT as solo:3x3:easy:20, GAME:@FILE or @TABLE. The games are {', '.join(GAMES)}, "
            f"the levels {', '.join(LEVELS)}, and a chapter has at most {MOST_PUZZLES} puzzles")
    try:
        puzzle = empty(game, size)
    except Refused as fault:
        raise argparse.ArgumentTypeError(f"{word}: the size {size} is refused: {fault}") from None
    if game == "tents" and min(puzzle.width, puzzle.height) < 4:
        raise argparse.ArgumentTypeError(f"{word}: Tents are made of 4x4 at least")
    if level in (OF_OTHERS if game == "solo" else OF_SOLO):
        raise argparse.ArgumentTypeError(f"{word}: {level} is no level of {game}")
    return [Chapter(game, puzzle.size, level, int(count))]
