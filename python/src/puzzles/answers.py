"""What the program answers, as section 6 of docs/FORMATS.md says."""
import dataclasses
import enum
import re
from typing import List, Optional, Sequence, Tuple, Type, TypeVar

Grid = Tuple[str, ...]  # the rows of a printed grid, from the top


class Word(str, enum.Enum):
    """A word of the program, which is equal to its text."""

    __str__ = str.__str__


class Verdict(Word):
    """The kind of an answer."""
    ONE = "one"  # exactly one solution
    NONE = "none"
    SEVERAL = "several"
    GAVE_UP = "gave up"  # more trials are needed than the budget
    CORRECT = "correct"
    WRONG = "wrong"
    MADE = "made"
    EXHAUSTED = "exhausted"  # no try made a puzzle
    REFUSED = "refused"
    LATE = "late"  # in a stream alone: the clock ended the search


class Grade(Word):
    """The weakest rule set that solves a puzzle, or the search."""
    SINGLES = "singles"
    HOUSES = "houses"
    CROSSINGS = "crossings"
    LINES = "lines"
    LOCAL = "local"
    SEARCH = "search"


@dataclasses.dataclass(frozen=True)
class Answer:
    """`refusal` is the first fault of what was REFUSED, as `bad byte at 4`, and `at` the number in it:
    of a line, or else of the bytes before the fault."""
    verdict: Verdict
    refusal: str = ""
    at: Optional[int] = None


@dataclasses.dataclass(frozen=True)
class Solved(Answer):
    """`grids` has the only solution of ONE, two of SEVERAL, and at most one of GAVE_UP."""
    grids: Tuple[Grid, ...] = ()

    @property
    def grid(self) -> Optional[Grid]:
        """The only solution."""
        return self.grids[0] if self.verdict is Verdict.ONE else None


@dataclasses.dataclass(frozen=True)
class Checked(Answer):
    """`broken` is the first broken rule of what is WRONG, as `touch 1,0`; counted from 0."""
    broken: str = ""


@dataclasses.dataclass(frozen=True)
class Graded(Answer):
    """`grade` and `trials` are there if the verdict is ONE; a rule set takes 0 trials. `trace` has the steps
    of the deduction, if they were asked for."""
    grade: Optional[Grade] = None
    trials: Optional[int] = None
    trace: Tuple[str, ...] = ()


@dataclasses.dataclass(frozen=True)
class Made(Answer):
    """`id` and its only solution, if the verdict is MADE."""
    id: Optional[str] = None
    grid: Optional[Grid] = None


Kind = TypeVar("Kind", bound=Answer)
OF_SOLVE = (Verdict.ONE, Verdict.NONE, Verdict.SEVERAL, Verdict.GAVE_UP)
RULE_SETS = (Grade.SINGLES, Grade.HOUSES, Grade.CROSSINGS, Grade.LINES, Grade.LOCAL)
MADE = re.compile("[0-9]+x[0-9]+x?:.*")


def refused(kind: Type[Kind], text: str) -> Kind:
    """An answer of a kind that tells a fault."""
    number = re.search("[0-9]+", text)
    return kind(Verdict.REFUSED, text, int(number[0]) if number else None)


def refusal(kind: Type[Kind], line: str) -> Optional[Kind]:
    """The answer of a kind that a line tells of a fault, or None."""
    return refused(kind, line[len("refused: "):]) if line.startswith("refused: ") else None


def verdict(text: str, allowed: Sequence[Verdict]) -> Verdict:
    """One of some verdicts. Raises ValueError."""
    if text not in allowed:
        raise ValueError(f"none of {', '.join(allowed)}: {text[:60]!r}")
    return Verdict(text)


def solved(lines: Sequence[str]) -> Solved:
    """Of `solve`, for one ID. Raises ValueError where the lines are no answer, as each of these does."""
    grids: List[List[str]] = [[]]
    for line in lines[1:]:
        if line:
            grids[-1].append(line)
        else:
            grids.append([])
    return refusal(Solved, lines[0]) or Solved(verdict(lines[0], OF_SOLVE), grids=tuple(tuple(rows) for rows in grids if rows))


def checked(lines: Sequence[str]) -> Checked:
    """Of `check`."""
    word, _, broken = lines[0].partition(": ")
    return refusal(Checked, lines[0]) or Checked(verdict(word, [Verdict.WRONG if broken else Verdict.CORRECT]), broken=broken)


def graded(lines: Sequence[str]) -> Graded:
    """Of `grade`."""
    word, _, trials = lines[0].partition(" ")
    if lines[0] in RULE_SETS or word == Grade.SEARCH and re.fullmatch("[0-9]+", trials):
        return Graded(Verdict.ONE, grade=Grade(word), trials=int(trials or 0), trace=tuple(lines[1:]))
    return refusal(Graded, lines[0]) or Graded(verdict(lines[0], OF_SOLVE[1:]), trace=tuple(lines[1:]))


def made(lines: Sequence[str]) -> Made:
    """Of `generate`."""
    if MADE.fullmatch(lines[0]):
        return Made(Verdict.MADE, id=lines[0], grid=tuple(lines[1:]))
    return refusal(Made, lines[0]) or Made(verdict(lines[0], [Verdict.EXHAUSTED]))
