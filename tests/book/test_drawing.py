"""A drawing as a Pattern."""
import itertools
import random
import re
import struct
import zlib

import pytest

DRAWING = "puzzles-drawing"
HEART = [".##.##.", "#######", "#######", ".#####.", "..###..", "...#..."]
CROSSED = ["#.", ".#"]


def plain(rows):
    """A PBM in text."""
    lines = [" ".join("01"[sign == "#"] for sign in row) for row in rows]
    return "\n".join(["P1", "# a drawing", f"{len(rows[0])} {len(rows)}", *lines]).encode()


def packed(rows):
    """A PBM in bits."""
    bits = [row.replace("#", "1").replace(".", "0").ljust(-len(row) % 8 + len(row), "0") for row in rows]
    return f"P4\n{len(rows[0])} {len(rows)}\n".encode() + b"".join(int(row, 2).to_bytes(len(row) // 8, "big") for row in bits)


def chunk(kind, content):
    return struct.pack(">I", len(content)) + kind + content + struct.pack(">I", zlib.crc32(kind + content))


def png(rows, colours, kind=2, palette=b""):
    """A PNG with these bytes for white and black."""
    lines = b"".join(b"\0" + b"".join(colours[sign == "#"] for sign in row) for row in rows)
    head = struct.pack(">IIBBBBB", len(rows[0]), len(rows), 8, kind, 0, 0, 0)
    more = chunk(b"PLTE", palette) if palette else b""
    return b"\x89PNG\r\n\x1a\n" + chunk(b"IHDR", head) + more + chunk(b"IDAT", zlib.compress(lines)) + chunk(b"IEND", b"")


def runs(cells):
    return ".".join(str(len(run)) for run in cells.split(".") if run)


def id_of(rows):
    return f"{len(rows[0])}x{len(rows)}:" + "/".join(runs("".join(cells)) for cells in [*zip(*rows), *rows])


def looked_at(bench, content, *words):
    path = bench.folder / "drawing"
    path.write_bytes(content)
    done = bench.run([DRAWING, *words, path])
    return done.returncode, done.stdout.splitlines(), done.stderr


def test_one(bench):
    """the same drawing as text, bits and three kinds of PNG has one ID, by its own clues, and one solution"""
    files = [plain(HEART), packed(HEART), png(HEART, (b"\xff\xff\xff", b"\0\0\0")), png(HEART, (b"\xee\xdd\x99", b"\x60\0\x20")),
             png(HEART, (b"\1", b"\0"), 3, b"\x20\0\0\xff\xf0\xf0"), png(HEART, (b"\0\0\0\0", b"\0\0\0\xff"), 6)]
    for number, content in enumerate(files):
        status, lines, errors = looked_at(bench, content)
        assert status == 0 and lines[0] == id_of(HEART), f"file {number}: {status} {lines} {errors}"
        assert lines[1].startswith("one: ") and lines[1].endswith(bench.grade("pattern", lines[0])), lines[1]


def test_several(bench):
    """the open cells are marked: in small drawings they are cells that differ between solutions found by trying all grids"""
    for number in range(1, 2**9, 7):
        sign = f"{number:09b}".replace("1", "#").replace("0", ".")
        rows = [sign[:3], sign[3:6], sign[6:]]
        grids = [grid for grid in ("".join(signs) for signs in itertools.product("#.", repeat=9))
                 if id_of([grid[:3], grid[3:6], grid[6:]]) == id_of(rows)]
        status, lines, errors = looked_at(bench, plain(rows))
        wanted = 0 if len(grids) == 1 else 3
        assert status == wanted and not errors, f"{rows}: status {status}, {len(grids)} solutions: {errors}"
        marked = {place for place, sign in enumerate("".join(lines[2:])) if sign == "?"}
        may_differ = {place for place in range(9) if len({grid[place] for grid in grids}) > 1}
        assert marked <= may_differ and bool(marked) == bool(may_differ), f"{rows}: {lines}"
    path = bench.folder / "open.svg"
    status, lines, _ = looked_at(bench, plain(CROSSED), "--svg", str(path))
    assert status == 3 and lines[2:] == ["??", "??"] and path.read_text().count("#c00") == 4, f"{status} {lines}"


def test_faults(bench):
    """what is no drawing of two colours, or too large, is told in one sentence"""
    heart = png(HEART, (b"\xff\xff\xff", b"\0\0\0"))
    three = b"P2\n3 1\n255\n0 128 255\n"
    broken = [heart[:40], heart[:-30], b"", b"GIF89a" + bytes(99), b"P4\n99999999 99999999\n", b"P1\n2 2\n1 0 x 1\n",
              b"P4\n-1 5\n"]
    cases = [(content, "no PBM, PGM, PPM or PNG") for content in broken]
    cases += [(b"P4\n4000 4000\n", "at most 120"), (plain(["#" * 121]), "at most 120"), (three, "more than two colours: --dark")]
    for content, sentence in cases:
        status, _, errors = looked_at(bench, content)
        assert status == 2 and sentence in errors and errors.count("\n") == 1, f"{content[:20]}: status {status}: {errors}"
    (bench.folder / "drawing").write_bytes(plain(HEART))
    bench.told([DRAWING, bench.folder / "nowhere.png"], 6, "No such file")
    bench.told([DRAWING, "--program", "nowhere", "drawing"], 7, "no program nowhere")
    bench.told([DRAWING, "--svg", "/proc/none.svg", "drawing"], 6, "/proc/none.svg")
    with open("/dev/full", "w") as full:
        bench.told([DRAWING, "drawing"], 6, "No space left", stdout=full)


def test_mended(bench):
    """a drawing with several solutions is mended: the cells that are told are changed, and no others, and then there is one"""
    draws = random.Random(8)
    drawings = [["#.#.#.#.", ".#.#.#.#"] * 4, ["".join(draws.choice("#...") for _ in range(9)) for _ in range(9)], CROSSED]
    for rows in drawings:
        status, lines, errors = looked_at(bench, plain(rows), "--mend", bench.folder / "mended.pbm")
        cells = [[*row] for row in rows]
        for column, row, colour in re.findall(r"column (\d+), row (\d+): (black|white)", errors):
            assert cells[int(row) - 1][int(column) - 1] == ("." if colour == "black" else "#"), f"{rows}: {errors}"
            cells[int(row) - 1][int(column) - 1] = "#" if colour == "black" else "."
        changed = ["".join(row) for row in cells]
        assert status == 0 and lines[0] == id_of(changed) and changed != rows, f"{rows}: status {status}: {lines} {errors}"
        answer = bench.good([bench.program, "solve", "--", "pattern", lines[0]]).splitlines()
        assert answer == ["one", *changed], f"{rows}: {answer}"
        assert (bench.folder / "mended.pbm").read_bytes() == plain(changed).replace(b"# a drawing\n", b"") + b"\n", "another PBM"
    status, lines, errors = looked_at(bench, plain(drawings[0][:4]), "--mend", "/proc/none.pbm")
    assert status == 6 and "/proc/none.pbm" in errors.splitlines()[-1], f"status {status}: {errors}"
    bench.told([DRAWING, "--changes", "0", "drawing"], 2, "changes are 1 to")


def test_photos(bench):
    """a picture of many greys is scaled to cells, and cut where it is told; a share of black is what it was"""
    grey = b"P5\n200 100\n255\n" + bytes(255 * x // 200 for _ in range(100) for x in range(200))
    for dark, black in ((50, 10), (25, 5), (80, 16)):
        status, lines, errors = looked_at(bench, grey, "--width", "20", "--dark", str(dark))
        assert status == 0 and lines[0] == id_of(["#" * black + "." * (20 - black)] * 10), f"{dark}: {status} {lines} {errors}"
    status, lines, errors = looked_at(bench, grey)
    assert status == 2 and "--width scales it" in errors and errors.count("\n") == 1, errors
    status, lines, errors = looked_at(bench, b"P5\n100 9000\n255\n" + bytes(900_000), "--width", "20")
    assert status == 2 and "at most 120 each way" in errors, errors
    for words in (["--width", "0"], ["--width", "121"], ["--dark", "101"], ["--dark", "nan"]):
        bench.told([DRAWING, *words, "drawing"], 2, "a width is 1 to 120")



pytestmark = pytest.mark.needs("import:PIL")
