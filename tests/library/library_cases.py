"""Calls of the library and of the module, with what the program answers to the same words. For `library.py` and `wasm.py`.

No script. A text has a character for each byte, so that it can go to JavaScript too.
"""
import concurrent.futures
import dataclasses
import itertools
import random
import subprocess
import sys

from support import real as ids

RUN_SECONDS = 120
MAKING_SECONDS = 60  # of one kind
WORKERS = 2
BUDGET = 20_000
MAKING_BUDGET = 1_000
GAMES = ("solo", "pattern", "lightup", "tents")
KINDS = {  # of each game the sizes, those that are slow to make last
    "solo": ["2x2", "2x3", "2x2x", "3x3", "3x3x", "3x4", "4x4", "4x5"],
    "pattern": ["5x5", "10x10", "1x9", "15x15", "12x20", "25x25"],
    "lightup": ["4x4", "7x7", "3x9", "10x10", "14x10"],
    "tents": ["4x4", "8x8", "10x10", "14x10", "20x20"],
}
LARGEST = [("solo", "31x1x:"), ("solo", "5x6:" + 34 * "z" + "p"), ("pattern", "120x120:" + "/".join(["1.1.1"] * 240)),
           ("pattern", "120x120:" + 239 * "/"), ("pattern", "120x120:1/1" + 118 * "/" + "/1/1" + 118 * "/"),
           ("lightup", "120x120:" + 14_400 * "B"), ("tents", "120x120:" + 576 * "z" + 240 * ",0")]
REFUSED = [("solo", ""), ("solo", "3x3:"), ("pattern", "3x1:1/1/1/2.1"), ("lightup", "2x2:x"), ("tents", "3x3"),
           ("chess", "2x2:p"), ("solo", "2x2:1\u00c3\u00a9"), ("solo", 65_537 * "1"), ("pattern", "--budget=5")]

OF_EXAMPLES = [("pattern", "5x1:1/1//1/1/2.2"), ("solo", "2x2:p"), ("lightup", "2x2:1c"), ("tents", "2x2:_c,0,1,1,0"),
               ("tents", "3x3"), ("chess", "2x2:p"), ("pattern", "120x120:" + 239 * "/")]
EMPTY = [("solve_each", "tents", ""), ("check", "pattern", "1x1:/"), ("check", "pattern", ""), ("grade", "solo", "")]


@dataclasses.dataclass
class Case:
    """A call with its arguments, and what the program answers."""
    call: str
    game: str
    text: str
    grid: str = ""
    options: dict = dataclasses.field(default_factory=dict)
    status: int = 0
    answer: str = ""

    def words(self):
        """The program's words, and its input."""
        options = ["--trace" if value is True else f"--{name}={value}"
                   for name, value in self.options.items() if value is not False]
        command, words = self.call, ["--", self.game, self.text.encode("latin-1")]
        given = self.grid
        if self.call == "solve_each":
            command, words, given = "solve", ["--", self.game], self.text
        return [command, *options, *words], given.encode("latin-1")


def ask(program, case):
    words, given = case.words()
    done = subprocess.run([program, *words], input=given, capture_output=True, check=False, timeout=RUN_SECONDS)
    case.status, case.answer = done.returncode, done.stdout.decode("latin-1")
    return case


def answered(program, cases):
    """The cases with the program's answers."""
    with concurrent.futures.ThreadPoolExecutor(WORKERS) as pool:
        return list(pool.map(lambda case: ask(program, case), cases))


def puzzles(program, count):
    """So many IDs of all games and sizes, with their games, one kind after another."""
    kinds = [(game, size) for game, sizes in KINDS.items() for size in sizes]
    each, made = -(-count // len(kinds)), []
    for game, size in kinds:
        slow = game == "solo" and size in ("4x4", "4x5")
        found = ids.holed(size, each) if slow else ids.generated(program, game, size, each, MAKING_SECONDS)
        print(f"{game} {size}: {len(found)} puzzles", file=sys.stderr, flush=True)
        made += [(game, text) for text in found]
    return made[:count]


def grids_of(answer):
    """The grids of an answer of `solve`, each as the input of `check`."""
    return [grid + "\n" for grid in answer.partition("\n")[2].rstrip("\n").split("\n\n") if grid]


def of_puzzles(program, made):
    """For each puzzle its solving, two checks, and two grades."""
    solved = answered(program, [Case("solve", game, text, options={"budget": BUDGET}) for game, text in made])
    others = []
    for case in solved:
        grid = (grids_of(case.answer) or [""])[0]
        others += [Case("check", case.game, case.text, given) for given in (grid, grid[::-1])]
        others += [Case("grade", case.game, case.text, options={"budget": BUDGET, "trace": traced}) for traced in (False, True)]
    return solved + answered(program, others)


def of_makings(program, seeds):
    """Puzzles that are made, of all games and with all options, and sizes that are refused."""
    sizes = [(game, size) for game, all_sizes in KINDS.items() for size in all_sizes[:4]]
    wanted = [*sizes, ("solo", "2x3x:"), ("pattern", "5x"), ("tents", "3x3"), ("lightup", "121x2"), ("solo", "")]
    options = [{"seed": seed, "budget": MAKING_BUDGET, "tries": tries} for seed in seeds for tries in (1, 1_000)]
    cases = [Case("generate", game, size, options=more) for (game, size), more in itertools.product(wanted, options)]
    cases.append(Case("generate", "pattern", "120x120", options={"seed": 1, "black": 100}))
    cases += [Case("generate", game, "6x6", options={"seed": 5, "black": black}) for game in GAMES for black in (0, 30, 100, 101)]
    return answered(program, cases)


def hostile(program, count):
    """Texts of any bytes as IDs, as lines, as grids and as sizes. As an ID and a size they have no NUL and are of UTF-8, since
    else they are no words of a program."""
    draws, cases = random.Random(count), []
    signs = [*"0123456789xX:/.,_#azAZBT^O ;-\r\n\t", "\0", "\x7f", "\xff", "\xc3"]
    for at in range(count):
        game, text = GAMES[at % 4], "".join(draws.choices(signs, k=draws.randrange(60)))
        begun = draws.choice(["", "2x2:", "5x5:", "3x3x:"]) + text
        word = begun.replace("\0", "").encode("latin-1").decode("utf-8", "ignore").encode().decode("latin-1")
        cases += [Case("solve_each", game, begun, options={"budget": 100}), Case("solve", game, word, options={"budget": 100}),
                  Case("check", "tents", "2x2:_c,0,1,1,0", text), Case("generate", game, word, options={"seed": 1, "tries": 1}),
                  Case("grade", game, word, options={"budget": 100, "trace": True})]
    return answered(program, cases)


def all_cases(program, count):
    """So many puzzles with five calls each, and the other calls."""
    made = puzzles(program, count)
    of_game = {game: "\n".join(text for name, text in made if name == game) for game in GAMES}
    rest = [Case("solve_each", game, lines, options={"budget": BUDGET}) for game, lines in of_game.items()]
    rest += [Case("solve", game, text, options={"budget": 100}) for game, text in LARGEST + REFUSED]
    rest += [Case(*words) for words in EMPTY]
    seeds = (1, 7, 2**63 + 1, 2**64 - 1, 2**64)
    return [*of_puzzles(program, made), *answered(program, rest), *of_makings(program, seeds), *hostile(program, 60)]
