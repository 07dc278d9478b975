"""The calls of the page: which texts of a visitor are taken, what of them reaches the program, and its answer in parts."""
import json
import re
import time
from typing import Callable, Dict, List, Sequence

from .. import answers
from ..answers import Grade, Grid, Kind
from .program import SECONDS, Failed, Workers, run

BUDGET = 20_000  # trials of a search; nine of ten real puzzles of each kind need fewer
MAKING_BUDGET = "1000"  # of each search of `generate`, if no other is asked for

NEEDED = {"solve": {"game", "id"}, "check": {"game", "id", "grid"}, "grade": {"game", "id"}, "generate": {"game", "size", "seed"}}
MORE = {"generate": {"black", "budget"}}
FIELDS = {"game": "solo|pattern|lightup|tents", "id": r"[^\x00-\x1f\x7f\ud800-\udfff]*", "grid": r"[0-9 #.O^T\n]{0,16384}",
          "size": "[0-9]{1,3}x[0-9]{1,3}x?", "seed": "[0-9]{1,20}", "black": "[0-9]{1,3}", "budget": "[0-9]{1,4}"}
Parts = Dict[str, object]  # of a reply, in JSON


class Refused(Exception):
    """A request isn't taken: a status, and why. What the program refuses is an answer, with the status 200."""


def fields(call: str, body: bytes) -> Dict[str, str]:
    """The texts of a request: those that the call needs, each as it may be, and no others."""
    try:
        asked = json.loads(body.decode())
    except (ValueError, RecursionError):
        raise Refused(400, "not JSON") from None
    if not isinstance(asked, dict) or set(asked) - MORE.get(call, set()) != NEEDED[call]:
        raise Refused(400, "fields")
    for name, text in asked.items():
        if name == "id" and isinstance(text, str):
            asked[name] = text = text.strip("\ufeff \t\r\n")
        if not isinstance(text, str) or not re.fullmatch(FIELDS[name], text):
            raise Refused(400, f"field {name}")
    return asked


def read(reader: Callable[[Sequence[str]], Kind], text: str) -> Kind:
    """An answer of the program. One of no known form, or one that is cut short, is no answer."""
    try:
        if not text.endswith("\n"):
            raise ValueError
        answer = reader(text.splitlines())
    except ValueError:
        raise Failed("program") from None
    if answer.refusal:
        raise Refused(200, answer.refusal)
    return answer


def rows(grids: Sequence[Grid]) -> List[List[str]]:
    return [list(grid) for grid in grids]


class Calls:
    """What each call answers."""

    def __init__(self, program: str):
        self.program = program
        self.workers = {game: Workers(program, game, BUDGET) for game in FIELDS["game"].split("|")}

    def answer(self, call: str, asked: Dict[str, str]) -> Parts:
        reply: Parts = getattr(self, call)(end=time.monotonic() + SECONDS, **asked)
        return reply

    def solve(self, end: float, game: str, id: str) -> Parts:
        found = read(answers.solved, self.workers[game].solve(id, end))
        return {"verdict": found.verdict, "grids": rows(found.grids)}

    def check(self, end: float, game: str, id: str, grid: str) -> Parts:
        found = read(answers.checked, run(self.program, "check", game, "--", id, given=grid, end=end))
        return {"verdict": found.verdict, **({"fault": found.broken} if found.broken else {})}

    def grade(self, end: float, game: str, id: str) -> Parts:
        found = read(answers.graded, run(self.program, "grade", f"--budget={BUDGET}", game, "--", id, end=end))
        grade = f"{found.grade} {found.trials}" if found.grade is Grade.SEARCH else found.grade
        return {"verdict": found.verdict, **({"grade": grade} if grade else {})}

    def generate(self, end: float, game: str, size: str, seed: str, black: str = "", budget: str = MAKING_BUDGET) -> Parts:
        more = [f"--seed={seed}", f"--budget={budget}", *([f"--black={black}"] if black else [])]
        found = read(answers.made, run(self.program, "generate", *more, game, "--", size, end=end))
        return {"verdict": found.verdict, "grids": rows([found.grid] if found.grid else []),
                **({"id": found.id, "seed": seed} if found.id else {})}
