"""A stream of grades, on all cores: many IDs go to one process where they can."""
import collections
import concurrent.futures
import itertools
import os
from typing import Deque, Dict, Iterable, Iterator, List, Optional, Tuple

from . import answers, ids
from ._work import Fault, Program
from .answers import Graded, Verdict
from .collect.grading import LIBRARY_PART, PART, PART_SECONDS, Grader
from .process import Game, NoAnswer, known, program, text_of, whole

BUDGET, SECONDS = 100_000, 10.0
AHEAD = 2  # parts for each core that wait
LATE = 3  # clocks after which a part goes on ID by ID
Part = List[Tuple[str, Graded]]


def grade_all(game: Game, texts: Iterable[str], *, budget: Optional[int] = None, seconds: float = SECONDS,
              library: Optional[str] = None) -> Iterator[Tuple[str, Graded]]:
    """Each text with its grade, in order, on all cores. Texts are taken some thousands ahead.

    `budget` is how many trials each search may make (100,000). `seconds` is the clock for each ID, whose verdict is LATE if it
    takes longer. With the path of libpuzzles.so the library grades, in a third of the time. Raises `NoAnswer` where the program
    failed, ValueError for another game, FileNotFoundError without the program.
    """
    known(game)
    try:
        asked = Program(program(), seconds)
        trials, clock = BUDGET if budget is None else whole(budget), min(PART_SECONDS, LATE * seconds)
        grader = Grader(asked, game, trials, library, clock)
    except Fault as fault:
        raise NoAnswer(str(fault)) from None
    given, cores = iter(texts), os.cpu_count() or 1
    waiting: Deque["concurrent.futures.Future[Part]"] = collections.deque()
    with concurrent.futures.ThreadPoolExecutor(cores) as pool:
        try:
            while part := list(itertools.islice(given, LIBRARY_PART if library else PART)):
                waiting.append(pool.submit(graded, grader, part))
                if len(waiting) > AHEAD * cores:
                    yield from waiting.popleft().result()
            while waiting:
                yield from waiting.popleft().result()
        except Fault as fault:
            raise NoAnswer(str(fault)) from None
        finally:
            asked.stop()
            pool.shutdown(wait=False, cancel_futures=True)


def graded(grader: Grader, part: List[str]) -> Part:
    """Each text of a part with its grade. The program is asked once for what is one puzzle."""
    known_ids: Dict[str, str] = {}
    refused: Dict[str, Graded] = {}
    for text in part:
        try:
            known_ids[text] = ids.written(ids.read(grader.game, text_of(text)))
        except ids.Refused as fault:
            refused[text] = answers.refused(Graded, str(fault))
    found = dict(grader.answer_part(list(dict.fromkeys(known_ids.values()))) if known_ids else [])
    return [(text, refused[text] if text in refused else graded_of(found[known_ids[text]])) for text in part]


def graded_of(answer: str) -> Graded:
    """Of the line that a Grader has for an ID."""
    return Graded(Verdict.LATE) if answer == "clock" else answers.graded([answer])
