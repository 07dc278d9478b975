#!/usr/bin/env python3
"""Compares searches of the four games with the walk as docs/RULES.md states it, by a plain program.

Solo has each block shape up to 31 numbers, and Solo X of each. The other games have boards of more than 36 cells, two of them
with sides past 64. Each kind gets COUNT puzzles: a part of what is drawn is changed, so there are boards without a solution, with
one, and with several. Each is searched with some budgets, among them the trials of its whole walk and one less. Verdict and grids
have to be the plain program's: it visits all houses in turn, copies its board for each trial, and keeps nothing else.
A walk that takes it too long is passed over, and counted. Prints a line for each kind, and what differs, with status 1.
"""
import collections
import functools
import itertools
import random
import subprocess
import sys
import time

from program.crossings import by_fillings, lines_and_blocks, one_filling
from puzzles._work import begin
from support import words
from support.composed import composed, runs

MOST, RUN_SECONDS, WALK_SECONDS = 31, 300, 5
BUDGETS, LONGEST = (0, 1, 4, 40), 400
DEFINED = 6  # up to so many numbers a house strikes by the definition
SIZES = [(7, 7), (10, 6), (5, 12), (12, 9), (9, 14), (70, 3), (3, 70)]
ASIDE = (0, -1), (-1, 0), (1, 0), (0, 1)


class Late(Exception):
    """A walk that takes the plain program too long."""


def by_one_filling(sets, _n):
    """The same as `by_fillings`. Of one filling cells change their numbers in turn, until one has the number that was left."""
    owner = one_filling(sets)
    if owner is None:
        return {(k, v) for k, s in enumerate(sets) for v in s}
    struck = set()
    for value, cell in owner.items():
        back, fresh = {value}, [value]
        while fresh:  # who could have one of these numbers gives up its own
            wanted = fresh.pop()
            for own, other in owner.items():
                if own not in back and wanted in sets[other]:
                    back.add(own)
                    fresh.append(own)
        struck |= {(cell, v) for v in sets[cell] if v not in back}
    return struck


def by_count(least, most):
    """What is struck where so many ones are wanted at least, and so many at most."""
    def visit(sets):
        must, may = sum(0 not in s for s in sets), sum(1 in s for s in sets)
        struck = set()
        if may < least or must > most:
            return {(k, v) for k, s in enumerate(sets) for v in s}
        if must == most:
            struck |= {(k, 1) for k, s in enumerate(sets) if len(s) > 1}
        if may == least:
            struck |= {(k, 0) for k, s in enumerate(sets) if len(s) > 1}
        return struck
    return visit


def by_runs(clue):
    """What is struck where the lengths of the runs of ones are wanted, in order: what no filling of the line has."""
    def visit(sets):
        end, kept = len(sets), set()

        @functools.lru_cache(maxsize=None)
        def fits(k, at):
            if at == end:
                return k == len(clue)
            after, fine = at + (clue[k] if k < len(clue) else end + 1), False
            if 0 in sets[at] and fits(k, at + 1):
                fine, _ = True, kept.add((at, 0))
            if after <= end and all(1 in s for s in sets[at:after]) and (after == end or 0 in sets[after]):
                if fits(k + 1, min(after + 1, end)):
                    fine, _ = True, kept.update([(p, 1) for p in range(at, after)], [(after, 0)])
            return fine

        fits(0, 0)
        return {(p, v) for p, s in enumerate(sets) for v in s if (p, v) not in kept}
    return visit


class Walk:
    """The walk of a puzzle, up to the second grid or the trial past the budget."""

    def __init__(self, game, budget):
        self.game, self.budget, self.trials, self.grids = game, budget, 0, []
        self.beside = collections.defaultdict(list)
        for number, (house, _visit) in enumerate(game.houses):
            for place in house:
                self.beside[place].append(number)
        self.until = time.monotonic() + WALK_SECONDS
        self.ended = self.go_on([set(s) for s in game.start])

    def close(self, board):
        waiting = dict.fromkeys(range(len(self.game.houses)))
        while waiting:
            if time.monotonic() > self.until:
                raise Late
            number = next(iter(waiting))
            del waiting[number]
            house, visit = self.game.houses[number]
            for k, v in visit([board[p] for p in house]):
                board[house[k]].discard(v)
                if not board[house[k]]:
                    return False
                waiting.update(dict.fromkeys(self.beside[house[k]]))
        return True

    def go_on(self, board):
        """Whether the walk of this board ended."""
        if not self.close(board):
            return True
        count, cell = min(((len(s), p) for p, s in enumerate(board) if len(s) > 1), default=(1, None))
        if cell is None:
            grid = [next(iter(s)) for s in board]
            self.grids += [grid] if self.game.accepts(grid) else []
            return len(self.grids) < 2
        for value in sorted(board[cell]):
            if self.trials == self.budget:
                return False
            self.trials += 1
            if not self.go_on([{value} if p == cell else set(s) for p, s in enumerate(board)]):
                return False
        return True

    def is_whole(self):
        """Whether the walk came to its end, or to a second grid."""
        return self.ended or len(self.grids) == 2

    def answer(self):
        """The lines that the program has to print, each grid before an empty line or the end."""
        if len(self.grids) == 2:
            verdict = "several"
        elif not self.ended:
            verdict = "gave up"
        else:
            verdict = "one" if self.grids else "none"
        return "\n".join([verdict, "\n\n".join(map(self.game.text, self.grids))]).rstrip()


class Solo:
    """A puzzle of Solo. Without a repeat in a house a closed grid is a solution."""
    name = "solo"

    def __init__(self, size, chance):
        c, r, x = size
        self.n, full = c * r, set(range(1, c * r + 1))
        givens = made(size, chance)
        visit = by_fillings if self.n <= DEFINED else by_one_filling
        self.houses = [(house, lambda sets: visit(sets, self.n)) for house in sum(lines_and_blocks(c, r, x), [])]
        self.start, self.id = [{g} if g else full for g in givens], spelled(size, givens)

    def accepts(self, grid):
        return all(len({grid[p] for p in house}) == self.n for house, _visit in self.houses)

    def text(self, grid):
        return "\n".join(" ".join(map(str, grid[y * self.n:(y + 1) * self.n])) for y in range(self.n))


def spelled(size, givens):
    """The game ID: letters count blanks, and `_` parts numbers."""
    c, r, x = size
    text, after_number = "", False
    for given, run in itertools.groupby(givens, key=lambda g: (g, 0) if g else (0, 1)):
        for part in [given[0]] * len(list(run)) if given[0] else [len(list(run))]:
            if given[0]:
                text += ("_" if after_number else "") + str(part)
                after_number = True
            else:
                text += "z" * (part // 26) + (chr(96 + part % 26) if part % 26 else "")
                after_number = False
    return f"{c}x{r}{'x' if x else ''}:{text}"


def made(size, chance):
    """Givens: a part of a filling that was shuffled, of which sometimes one is changed."""
    c, r, _x = size
    n = c * r
    numbers = chance.sample(range(1, n + 1), n)
    rows = [b * c + y for b in chance.sample(range(r), r) for y in chance.sample(range(c), c)]
    columns = [b * r + i for b in chance.sample(range(c), c) for i in chance.sample(range(r), r)]
    filling = [numbers[(r * (y % c) + y // c + i) % n] for y in rows for i in columns]
    left = chance.choice((0.0, 0.3, 0.45, 0.6, 0.8)) if n <= 9 else chance.uniform(0.4, 0.8)
    givens = [g if chance.random() < left else 0 for g in filling]
    if chance.random() < 0.4:
        givens[chance.randrange(n * n)] = chance.randrange(1, n + 1)
    return givens


class Board:
    """A board of two values, by columns and rows."""

    def __init__(self, size):
        self.w, self.h = size
        self.places = range(self.w * self.h)
        self.houses = []

    def beside(self, place):
        x, y = place % self.w, place // self.w
        return [(y + v) * self.w + x + u for u, v in ASIDE if 0 <= x + u < self.w and 0 <= y + v < self.h]

    def lines(self):
        """The columns, and then the rows."""
        return [*([*self.places[x::self.w]] for x in range(self.w)),
                *([*self.places[y * self.w:(y + 1) * self.w]] for y in range(self.h))]

    def text(self, grid):
        signs = [self.sign(place, value) for place, value in enumerate(grid)]
        return "\n".join("".join(signs[y * self.w:(y + 1) * self.w]) for y in range(self.h))


class Pattern(Board):
    """A puzzle of Pattern: the runs of a drawn grid, sometimes but for one line."""
    name = "pattern"

    def __init__(self, size, chance):
        super().__init__(size)
        share = chance.choice((0.4, 0.55, 0.7))
        drawn = [chance.random() < share for _ in self.places]
        self.clues = [runs([drawn[p] for p in line]) for line in self.lines()]
        if chance.random() < 0.3:
            line = chance.randrange(len(self.clues))
            self.clues[line] = self.clues[line][::-1] if len(self.clues[line]) > 1 else [1]
        self.houses = [(line, by_runs(clue)) for line, clue in zip(self.lines(), self.clues)]
        self.start = [{0, 1} for _ in self.places]
        self.id = composed(self.name, f"{self.w}x{self.h}", clues=self.clues)

    def accepts(self, grid):
        return all(runs([grid[p] for p in line]) == clue for line, clue in zip(self.lines(), self.clues))

    def sign(self, _place, value):
        return ".#"[value]


class Lights(Board):
    """A puzzle of Light Up: black cells, and numbers of drawn bulbs, some of which are left out or changed."""
    name = "lightup"

    def __init__(self, size, chance):
        super().__init__(size)
        self.white = [chance.random() > 0.25 for _ in self.places]
        self.seen = [self.rays(p) if self.white[p] else [] for p in self.places]
        bulbs, left = set(), chance.choice((0.4, 0.7, 1.0))
        for place in chance.sample(self.places, len(self.places)):
            if self.white[place] and not bulbs & {place, *sum(self.seen[place], [])}:
                bulbs.add(place)
        self.numbers = {p: len(bulbs & {*self.beside(p)}) for p in self.places if not self.white[p] and chance.random() < left}
        if self.numbers and chance.random() < 0.3:
            self.numbers[chance.choice([*self.numbers])] = chance.randrange(5)
        self.houses = [([q for q in self.beside(p) if self.white[q]], by_count(n, n)) for p, n in self.numbers.items()]
        for place in self.places:
            if self.white[place]:
                row, column = self.seen[place]
                self.houses += [([place, *ray], by_count(0, 1)) for ray in (row, column)]
                self.houses.append(([place, *row, *column], by_count(1, len(self.places))))
        self.start = [{0, 1} if white else {0} for white in self.white]
        self.id = composed(self.name, f"{self.w}x{self.h}", [self.black(p) for p in self.places])

    def rays(self, place):
        """The white cells that are seen from one, in its row and in its column."""
        x, y = place % self.w, place // self.w
        lines = [[(x + k * step, y) for k in range(1, self.w)] for step in (-1, 1)]
        lines += [[(x, y + k * step) for k in range(1, self.h)] for step in (-1, 1)]
        rays = [[*itertools.takewhile(lambda at: 0 <= at[0] < self.w and 0 <= at[1] < self.h
                                      and self.white[at[1] * self.w + at[0]], line)] for line in lines]
        row, column = ([v * self.w + u for u, v in one + other] for one, other in (rays[:2], rays[2:]))
        return [row, column]

    def black(self, place):
        return "" if self.white[place] else str(self.numbers.get(place, "#"))

    def accepts(self, grid):
        lit = all(grid[p] + sum(grid[q] for q in sum(self.seen[p], [])) >= 1 for p in self.places if self.white[p])
        alone = all(not any(grid[q] for q in sum(self.seen[p], [])) for p in self.places if grid[p])
        return lit and alone and all(sum(grid[q] for q in self.beside(p)) == n for p, n in self.numbers.items())

    def sign(self, place, value):
        return self.black(place) or ".O"[value]


class Tents(Board):
    """A puzzle of Tents: trees beside drawn tents, and the numbers of the lines, sometimes with two that are exchanged."""
    name = "tents"

    def __init__(self, size, chance):
        super().__init__(size)
        tents, self.trees = set(), set()
        for place in chance.sample(self.places, len(self.places))[:chance.randrange(len(self.places) // 2, len(self.places))]:
            free = [p for p in self.beside(place) if p not in self.trees | tents]
            if place not in self.trees and free and not tents & {*self.around(place)}:
                tents.add(place)
                self.trees.add(chance.choice(free))
        self.counts = [len(tents & {*line}) for line in self.lines()]
        if chance.random() < 0.3:
            one, other = chance.sample(range(self.w), 2)
            self.counts[one], self.counts[other] = self.counts[other], self.counts[one]
        self.houses = [(line, by_count(n, n)) for line, n in zip(self.lines(), self.counts)]
        self.houses += [(self.beside(tree), by_count(1, 4)) for tree in self.trees]
        self.houses += [([p, p + 1, p + self.w, p + self.w + 1], by_count(0, 1)) for p in self.places
                        if p % self.w + 1 < self.w and p // self.w + 1 < self.h]
        self.start = [{0, 1} if p not in self.trees and self.trees & {*self.beside(p)} else {0} for p in self.places]
        self.id = composed(self.name, f"{self.w}x{self.h}", ["T" if p in self.trees else "" for p in self.places],
                           [[count] for count in self.counts])

    def around(self, place):
        x, y = place % self.w, place // self.w
        near = [(u, v) for u in range(x - 1, x + 2) for v in range(y - 1, y + 2)]
        return [v * self.w + u for u, v in near if 0 <= u < self.w and 0 <= v < self.h]

    def accepts(self, grid):
        """Whether tents and trees can be paired, and all else is as it has to be."""
        tents, owner = [p for p in self.places if grid[p]], {}

        def placed(tent, tried):
            for tree in {*self.beside(tent)} & self.trees - tried:
                tried.add(tree)
                if tree not in owner or placed(owner[tree], tried):
                    owner[tree] = tent
                    return True
            return False

        alone = all(not any(grid[q] for q in self.around(p) if q != p) for p in tents)
        counted = all(sum(grid[p] for p in line) == n for line, n in zip(self.lines(), self.counts))
        return alone and counted and len(tents) == len(self.trees) and all(placed(tent, set()) for tent in tents)

    def sign(self, place, value):
        return "T" if place in self.trees else ".^"[value]


def told(program, budget, game):
    """The answer of one run."""
    line = [program, "solve", "--budget", str(budget), "--", game.name, game.id]
    return subprocess.run(line, capture_output=True, text=True, check=False, timeout=RUN_SECONDS).stdout.rstrip()


def shapes():
    for c in range(2, MOST // 2 + 1):
        for r in range(2, MOST // c + 1):
            yield from ((c, r, x) for x in (False, True))


def budgets(game):
    """Some budgets; with them, of a walk that isn't too long, all its trials, one more and one less."""
    whole = Walk(game, LONGEST)
    near = [whole.trials + more for more in (-1, 0, 1)] if whole.is_whole() else []
    return sorted({*BUDGETS, *(budget for budget in near if budget >= 0)})


def compared(program, game, here):
    """What differs of a puzzle's searches, whose verdicts are counted."""
    for budget in budgets(game):
        own = Walk(game, budget).answer()
        verdict = own.split("\n")[0]
        here[verdict] += 1
        if told(program, budget, game) != own:
            yield f"a budget of {budget} differs: {verdict} is the answer to {game.name} {game.id}"


def main():
    form = words.form(__doc__)
    form.add_argument("count", metavar="COUNT", type=words.count, nargs="?", default=3, help="for each kind (3)")
    form.add_argument("--seed", type=int, default=1, help="of what is drawn (1)")
    asked = form.parse_args()
    kinds = [(Solo, size) for size in shapes()] + [(game, size) for game in (Pattern, Lights, Tents) for size in SIZES]
    chance, faults, passed, seen = random.Random(asked.seed), 0, 0, collections.Counter()
    for game, size in kinds:
        here = collections.Counter()
        for _turn in range(asked.count):
            try:
                for fault in compared(asked.program, game(size, chance), here):
                    faults += 1
                    print(fault, flush=True)
            except Late:
                passed += 1
        seen.update({(game.name, verdict): count for verdict, count in here.items()})
        if sys.stderr.isatty():
            print(game.name, size, dict(here), file=sys.stderr)
    for name in dict.fromkeys(game.name for game, _size in kinds):
        told_of = ", ".join(f"{count} {verdict}" for (own, verdict), count in sorted(seen.items()) if own == name)
        print(f"{name}: {told_of}")
    print(f"{sum(seen.values())} searches; {passed} passed over, {faults} faults")
    sys.exit(1 if faults or not seen else 0)


if __name__ == "__main__":
    begin(main)
