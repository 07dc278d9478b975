"""One question, one process: some milliseconds each."""
from typing import Callable, Iterable, List, Optional, Type, Union

from . import answers, ids
from .answers import Checked, Graded, Kind, Made, Solved
from .process import Game, NoAnswer, is_word, known, option, run, text_of


def solve(game: Game, text: str, *, budget: Optional[int] = None, seconds: Optional[float] = 10) -> Solved:
    """The solutions of an ID: none, one, or two different ones of several.

    `budget` is how many trials the search may make (100,000), and `seconds` the clock; None is no clock.
    Raises `Late`, `NoAnswer`, ValueError for another game, FileNotFoundError without the program.
    """
    return ask(answers.solved, Solved, ["solve", *option("budget", budget)], game, text, seconds)


def check(game: Game, text: str, grid: Union[str, Iterable[str]], *, seconds: Optional[float] = 10) -> Checked:
    """Whether a grid is a solution; else the first broken rule. It is given as it is printed: by its rows, or as one text.

    Raises what `solve` does.
    """
    rows = grid.splitlines() if isinstance(grid, str) else grid
    return ask(answers.checked, Checked, ["check"], game, text, seconds, "".join(f"{row}\n" for row in rows))


def grade(game: Game, text: str, *, budget: Optional[int] = None, trace: bool = False,
          seconds: Optional[float] = 10) -> Graded:
    """How hard a puzzle is; `trace` asks for the steps of the deduction too. Raises what `solve` does."""
    words = ["grade", *option("budget", budget), *(["--trace"] if trace else [])]
    return ask(answers.graded, Graded, words, game, text, seconds)


def generate(game: Game, size: str, seed: int, *, budget: Optional[int] = None, tries: Optional[int] = None,
             black: Optional[int] = None, seconds: Optional[float] = 60) -> Made:
    """A puzzle with exactly one solution. A seed of 0 to 2**64 - 1 gives the same one each time.

    A `budget` of 0 makes one that needs no guess. `tries` are the solved grids that are tried (1,000), and `black`
    is black cells per cent, of Pattern and Light Up alone. Raises what `solve` does.
    """
    words = ["generate", *option("seed", seed), *option("budget", budget), *option("tries", tries), *option("black", black)]
    return ask(answers.made, Made, words, game, size, seconds)


def ask(read: Callable[[List[str]], Kind], kind: Type[Kind], words: List[str], game: Game, text: str,
        seconds: Optional[float], given: str = "") -> Kind:
    """The answer of one run, read by a function of `answers`."""
    name, word = known(game), text_of(text)
    if not is_word(word):
        return answers.refused(kind, fault_of(name, word, kind is Made))
    lines = run([*words, "--", name, word], given, seconds)
    try:
        return read(lines)
    except ValueError:
        raise NoAnswer(f"an answer of no known form: {lines[0][:60]!r}") from None


def fault_of(game: str, word: bytes, is_size: bool) -> str:
    """The first fault of a text that is too long or has a NUL."""
    try:
        ids.empty(game, word.decode("latin-1")) if is_size else ids.read(game, word)
    except ids.Refused as fault:
        return str(fault)
    raise AssertionError("no ID is too long or has a NUL")
