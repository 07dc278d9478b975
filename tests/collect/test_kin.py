"""Doubles by symmetry, lists, and what a collection forgets, measures and notices."""
import contextlib
import csv
import io
import itertools
import json
import random
import sqlite3
import time

from puzzles.collect import __main__ as collecting
from puzzles.collect.forms import form
from support.bench import SECONDS, without_progress
from collect.test_collect import COLLECT, add, rows, solos

SYMMETRIC = {"lightup": ("7x7", "5x9"), "tents": ("8x8", "6x9"), "pattern": ("6x6", "4x7")}
MOST_MILLISECONDS = 1.0  # for the form of a Solo of 3x3, if nothing else runs


def grid_of(text):
    """The cells of a Solo by an own look at its ID."""
    cells, digits = [], ""
    for sign in [*text.partition(":")[2], "_"]:
        if sign.isdigit():
            digits += sign
            continue
        cells += [int(digits)] if digits else []
        digits = ""
        cells += [0] * (0 if sign == "_" else ord(sign) - 96)
    side = int(len(cells) ** .5)
    return [cells[at:at + side] for at in range(0, len(cells), side)]


def id_of(grid, size):
    """An ID of a Solo, with each blank as a letter of its own."""
    return f"{size}:" + "_".join(str(cell) if cell else "a" for row in grid for cell in row)


def moved(draws, grid, down, across):
    """A Solo with rows, bands, columns, stacks and numbers in another order."""
    side = len(grid)
    rows_there, columns = ([part * step + one for part in draws.sample(range(side // step), side // step)
                            for one in draws.sample(range(step), step)] for step in (down, across))
    names = [0, *draws.sample(range(1, side + 1), side)]
    return [[names[grid[row][column]] for column in columns] for row in rows_there]


def brute_force(grid):
    """The least of all ways to order and turn a Solo of 2x2, with numbers as they come: the form by its definition."""
    orders = [[*first, *second] for pair in (((0, 1), (2, 3)), ((2, 3), (0, 1))) for first in (pair[0], pair[0][::-1])
              for second in (pair[1], pair[1][::-1])]
    least = None
    for turned in (grid, [*zip(*grid)]):
        for rows_there, columns in itertools.product(orders, orders):
            names = {0: 0}
            flat = [names.setdefault(turned[row][column], len(names)) for row in rows_there for column in columns]
            least = min(least or flat, flat)
    return tuple(least)


def forms_of(bench, game, texts):
    """The form of each ID, by a table of its own."""
    path, table = bench.folder / "kin.txt", bench.folder / f"kin-{game}-{len(texts)}-{time.monotonic_ns()}.db"
    path.write_text("".join(f"{text}\n" for text in texts))
    add(bench, table, game, path, "--later")
    bench.good([COLLECT, "forms", table, game])
    with sqlite3.connect(table) as base:
        found = dict(base.execute("SELECT id, form FROM puzzle"))
    return [found[text] for text in bench.written(game, [text.encode() for text in texts])]


def test_doubles(bench):
    """Solo moved in any way has one form, and of 2x2 exactly those that all ways make the same; others do by turns and mirrors"""
    draws = random.Random(6)
    small = [[[draws.choice((0, 0, 0, 0, 0, 1, 2)) for _ in range(4)] for _ in range(4)] for _ in range(250)]
    found = forms_of(bench, "solo", [id_of(grid, "2x2") for grid in small])
    wanted = [*map(brute_force, small)]
    pairs = set(zip(found, wanted))
    assert len(pairs) == len(set(found)) == len(set(wanted)) < 250, f"{len(set(found))} forms, {len(set(wanted))} by all ways"
    for size, down, across in (("3x3", 3, 3), ("2x3", 2, 3), ("4x4", 4, 4)):
        grids = [grid_of(bench.generate("solo", size, seed, "--budget=0")[0]) for seed in range(1, 7)]
        texts = [id_of(moved(draws, grid, down, across), size) for grid in grids for _ in range(4)]
        texts += [id_of([*zip(*grid)], "x".join(size.split("x")[::-1])) for grid in grids]
        found = forms_of(bench, "solo", texts)
        kinds = [set(found[4 * at:4 * at + 4]) | {found[24 + at]} for at in range(6)]
        assert all(len(kind) == 1 for kind in kinds) and len(set(found)) == 6, f"{size}: {[len(kind) for kind in kinds]}"
    for game, sizes in SYMMETRIC.items():
        texts = [bench.generate(game, size, seed)[0] for size in sizes for seed in range(1, 5)]
        ways = [[*eight(bench, game, text)] for text in texts]
        found = forms_of(bench, game, [text for way in ways for text in way])
        kinds = [set(found[8 * at:8 * at + 8]) for at in range(len(texts))]
        counts = [len(kind) for kind in kinds]
        assert set(counts) == {1} and len(set(found)) == len(texts), f"{game}: {counts}"


def eight(bench, game, text):
    """IDs of a puzzle turned and mirrored, by an own look at its parts."""
    size, _, description = text.partition(":")
    width, height = map(int, size.split("x"))
    if game == "lightup":
        cells = "".join("." * (ord(sign) - 96) if sign.islower() else sign for sign in description)
        yield from ("{}x{}:{}".format(len(grid[0]), len(grid), "".join(sign.replace(".", "a") for row in grid for sign in row))
                    for grid, _, _ in turned([cells[at:at + width] for at in range(0, len(cells), width)], [], []))
    elif game == "tents":
        head, *clues = description.split(",")
        cells = "".join("." * 25 if sign == "z" else "." * ("_abcdefghijklmnopqrstuvwxy".index(sign)) + "T" for sign in head)[:-1]
        grid = [cells[at:at + width] for at in range(0, len(cells), width)]
        for there, columns, lines in turned(grid, clues[:width], clues[width:]):
            runs = "".join("".join(row) for row in there).split("T")
            trees = "".join("z" * (len(run) // 25 if len(run) > 25 else 0) + "_abcdefghijklmnopqrstuvwxy"[
                len(run) if len(run) <= 25 else len(run) % 25] for run in runs)
            yield f"{len(there[0])}x{len(there)}:{trees},{','.join([*columns, *lines])}"
    else:
        clues = [clue.split(".") for clue in description.split("/")]
        for grid, columns, lines in turned(["." * width] * height, clues[:width], clues[width:]):
            yield f"{len(grid[0])}x{len(grid)}:" + "/".join(".".join(clue) for clue in [*columns, *lines])


def turned(grid, columns, lines):
    """Cells and clues in eight ways; a clue that is a list is read from the other end."""
    def back(clues):
        return [clue[::-1] if isinstance(clue, list) else clue for clue in clues]
    for _ in range(2):
        for _ in range(2):
            grid, lines, columns = grid[::-1], lines[::-1], back(columns)
            for _ in range(2):
                grid, columns, lines = [row[::-1] for row in grid], columns[::-1], back(lines)
                yield grid, columns, lines
        grid, columns, lines = [*map(list, zip(*grid))], lines, columns


def test_forms_without_shared_memory(bench, monkeypatch, capsys):
    """where processes can't share memory, forms are found all the same, and it is said"""
    path, table = bench.folder / "ids.txt", bench.folder / "one.db"
    path.write_text("".join(f"{text}\n" for text in solos(bench, 6)))
    add(bench, table, "solo", path, "--later")

    def none(*_):
        raise PermissionError(13, "Permission denied")
    monkeypatch.setattr(collecting.multiprocessing, "Pool", none)
    monkeypatch.setattr(collecting.sys, "argv", ["collect", "forms", str(table), "solo"])
    assert not collecting.main()
    assert "one core finds the forms, for there is no shared memory" in capsys.readouterr().err
    with sqlite3.connect(table) as base:
        found = dict(base.execute("SELECT id, form FROM puzzle"))
    assert len(found) == 6 and all(form(game="solo", text=text) == one for text, one in found.items())


def test_lists(bench):
    """lists have the rows of the table, the hardest first: IDs, CSV and JSON, by grade, and of doubles one"""
    path, table = bench.folder / "ids.txt", bench.folder / "list.db"
    texts = solos(bench, 60)
    path.write_text("".join(f"{text}\n" for text in texts))
    add(bench, table, "solo", path)
    there = {row[1]: row for row in rows(table)}
    ids = bench.good([COLLECT, "list", table, "solo"]).splitlines()
    ranks = [(["singles", "houses", "crossings", "search"].index(there[text][4]), there[text][5]) for text in ids]
    assert sorted(ids) == sorted(there) and ranks == sorted(ranks, reverse=True), f"{ranks}"
    objects = [json.loads(line) for line in bench.good([COLLECT, "list", "--json", table, "solo"]).splitlines()]
    table_rows = [*csv.DictReader(io.StringIO(bench.good([COLLECT, "list", "--csv", table, "solo"])))]
    assert [one["id"] for one in objects] == [row["id"] for row in table_rows] == ids, "JSON, CSV and IDs have other rows"
    assert all((one["grade"], one["trials"]) == there[one["id"]][4:6] for one in objects), "another grade"
    grade = there[ids[0]][4]
    few = bench.good([COLLECT, "list", "--grade", grade, "--most", "3", table, "solo"]).splitlines()
    assert few == ids[:3], f"{few}, {ids[:3]}"
    assert bench.good([COLLECT, "list", "--grade", "none", table, "solo"]) == "", "a verdict that no puzzle has"
    bench.good([COLLECT, "forms", table, "solo"])
    apart = bench.good([COLLECT, "list", "--apart", table, "solo"]).splitlines()
    with sqlite3.connect(table) as base:
        kinds = base.execute("SELECT count(DISTINCT form) FROM puzzle").fetchone()[0]
    assert len(apart) == len(set(apart)) == kinds and set(apart) <= set(ids), f"{len(apart)} apart, {kinds} forms"
    bench.told([COLLECT, "list", "--most", "0", table, "solo"], 2, "at least 1")


def test_measured(bench):
    """the effort is the length of the trace that the program tells; older tables get the new columns, and keep their rows"""
    for game, size in (("pattern", "8x8"), ("solo", "3x3"), ("tents", "8x8")):
        path, table = bench.folder / "ids.txt", bench.folder / f"{game}.db"
        texts = [bench.generate(game, size, seed)[0] for seed in range(1, 13)]
        path.write_text("".join(f"{text}\n" for text in texts))
        with sqlite3.connect(table) as base:
            base.execute("CREATE TABLE puzzle (id TEXT, game TEXT, size TEXT, verdict TEXT, grade TEXT, trials INTEGER, "
                         "clues INTEGER, times INTEGER, source TEXT, PRIMARY KEY (game, id)) WITHOUT ROWID")
            base.execute("INSERT INTO puzzle VALUES ('kept', 'other', '1', 'one', 'lines', 0, 0, 1, 'x:1')")
        add(bench, table, game, path)
        bench.good([COLLECT, "measure", table, game])
        with sqlite3.connect(table) as base:
            found = dict(base.execute("SELECT id, effort FROM puzzle WHERE game = ?", (game,)))
            kept = base.execute("SELECT count(*) FROM puzzle WHERE game = 'other'").fetchone()
            assert kept == (1,), "a row of an older table is lost"
        for text in texts:
            trace = bench.run([bench.program, "grade", "--trace", "--", game, text]).stdout.splitlines()[1:]
            width, height = (9, 9) if game == "solo" else (8, 8)
            wanted = int(trace[0].split()[1]) if game == "tents" else round(len(trace) / (width + height), 2)
            assert found[text] == wanted, f"{game} {text}: {found[text]}, wanted {wanted}"


def test_forgotten(bench):
    """a file of the wrong game is taken back, with what was met in it alone; the same lines by another name are told"""
    path, other, table = bench.folder / "ids.txt", bench.folder / "more.txt", bench.folder / "forget.db"
    texts = solos(bench, 40)
    path.write_text("".join(f"{text}\n" for text in texts[:30]))
    other.write_text("".join(f"{text}\n" for text in texts[20:]))
    add(bench, table, "solo", path)
    before = rows(table)
    add(bench, table, "solo", other)
    done = bench.run([COLLECT, "add", "--later", table, "tents", path])
    assert done.returncode == 2, f"status {done.returncode}"
    said = bench.good([COLLECT, "forget", table, "tents", path])
    assert said.startswith("0 puzzles and 30 refusals are gone"), said
    said = bench.good([COLLECT, "forget", table, "solo", other])
    assert said.startswith("10 puzzles and 0 refusals are gone"), said
    assert [row[1] for row in rows(table)] == [row[1] for row in before], "another file's puzzles are gone"
    bench.told([COLLECT, "forget", table, "solo", other], 2, "no file was taken by the name")
    done = bench.run([COLLECT, "add", "--source", "again", table, "solo", path])
    assert done.returncode == 0 and f"again has the lines of {path}" in done.stderr, done.stderr


def listed(bench, table):
    """Of each ID how often it was met, and where first."""
    told = bench.good([COLLECT, "list", "--csv", table, "solo"])
    return {row["id"]: (int(row["times"]), row["source"].rpartition("/")[2]) for row in csv.DictReader(io.StringIO(told))}


def test_forgotten_as_if_never_taken(bench):
    """after `forget` the table is as if the file had never been taken: a puzzle that stands twice in it, how often others were
    met, and where"""
    one, two, three = texts = solos(bench, 3)
    path, other = bench.folder / "a.txt", bench.folder / "b.txt"
    path.write_text(f"{one}\n{two}\n{one}\nnonsense\n{two}\n")
    other.write_text(f"{two}\n{three}\n")
    for order, first in (((path, other), "a.txt:2"), ((other, path), "b.txt:1")):
        table = bench.folder / f"{order[0].name}.db"
        for file in order:
            bench.run([COLLECT, "add", table, "solo", file])  # a line of it is refused
        assert listed(bench, table) == {one: (2, "a.txt:1"), two: (3, first), three: (1, "b.txt:2")}
        said = bench.good([COLLECT, "forget", table, "solo", path])
        assert said.startswith("1 puzzles and 1 refusals are gone"), said
        assert listed(bench, table) == {two: (1, "b.txt:1"), three: (1, "b.txt:2")}
        bench.run([COLLECT, "add", table, "solo", path])
        assert {text: times for text, (times, _) in listed(bench, table).items()} == dict(zip(texts, (2, 3, 1)))


def test_forgotten_of_an_older_table(bench):
    """a table from before has no list of what stood in its files: that is told, and nothing goes"""
    path, table = bench.folder / "ids.txt", bench.folder / "older.db"
    path.write_text("".join(f"{text}\n" for text in solos(bench, 5)))
    add(bench, table, "solo", path)
    with contextlib.closing(sqlite3.connect(table)) as base:
        base.execute("DROP TABLE met")
    before = rows(table)
    bench.told([COLLECT, "forget", table, "solo", path], 2, "taken by an older version")
    assert rows(table) == before


def test_together(bench):
    """two runs that take one file at once take each line once, and neither is lost; a damaged table is told"""
    path, table = bench.folder / "ids.txt", bench.folder / "two.db"
    texts = solos(bench, 6000)
    path.write_text("".join(f"{text}\n" for text in texts))
    words = [COLLECT, "add", "--later", "--source", "ids", table, "solo", path]
    runs = [bench.start(words) for _ in range(3)]
    ends = [(without_progress(run.communicate(timeout=SECONDS)[1]), run.returncode) for run in runs]
    assert (all(status == 0 or status == 6 and error.count("\n") == 1 and "another run takes this file" in error
               for error, status in ends)), (
        f"{ends}")
    bench.good(words)
    there = rows(table)
    met = sum(row[7] for row in there)
    assert len(there) == 6000 and all(row[7] == 1 for row in there), f"{len(there)} rows, met {met} times"
    content = bytearray(table.read_bytes())
    middle = len(content) // 2
    content[middle:middle + 200] = bytes(byte ^ 0xFF for byte in content[middle:middle + 200])
    table.write_bytes(content)
    bench.told([COLLECT, "grade", table, "solo"], 6, "two.db")

