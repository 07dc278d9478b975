"""The levels of a book. Easy, medium and hard are the page's: the level of each grade stands in page/web/grades.js."""
import json
from typing import Dict

from .. import _places

TABLE = _places.page("web") / "grades.js"
FEW_TRIALS = 4  # with which a `search` is medium, but in Solo
MOST_TRIALS = 20  # of a hard puzzle
OF_SOLO, OF_OTHERS = ("houses", "crossings"), ("long",)
LEVELS = ("easy", *OF_OTHERS, *OF_SOLO, "medium", "hard", "any")


def level_of_grades() -> Dict[str, str]:
    """The level of each grade."""
    table: Dict[str, str] = json.loads(TABLE.read_text(encoding="utf-8").partition("= ")[2].rstrip().rstrip(";"))
    return table


LEVEL_OF = level_of_grades()


def level_of(game: str, grade: str) -> str:
    """The level of a puzzle: easy, medium or hard."""
    word, _, trials = grade.partition(" ")
    return "medium" if word == "search" and game != "solo" and int(trials) <= FEW_TRIALS else LEVEL_OF[word]


def takes(level: str, game: str, grade: str) -> bool:
    """Whether a puzzle of a grade may be of a level."""
    word, _, trials = grade.partition(" ")
    if level in OF_SOLO:
        return word == level
    if level in OF_OTHERS:
        return level_of(game, grade) == "easy"
    return level == "any" or level == level_of(game, grade) and (word != "search" or 1 < int(trials) <= MOST_TRIALS)


def budget(level: str, game: str) -> int:
    """Trials for a test whether a clue may go: without any the puzzle needs none either. The search goes by `houses`, so it has
    trials where `crossings` has none."""
    if level in ("easy", "houses", *OF_OTHERS) or level == "medium" and game == "solo":
        return 0
    return FEW_TRIALS if level == "medium" else MOST_TRIALS
