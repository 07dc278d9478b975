"""Books of puzzles, looked at by poppler's programs."""
import csv
import html
import math
import re
import time

import pytest

from support.trial import wait_until

from support.bench import SECONDS, SOURCES, children, without_progress

pytestmark = [pytest.mark.slow, pytest.mark.needs("chromium", "pdftotext", "pdftoppm", "pdfinfo", "pdftohtml", "ps")]
BOOK = "puzzles-book"
CHAPTERS = ["solo:3x3:easy:3", "solo:2x3x:any:2", "pattern:10x10:easy:2", "pattern:10x10:long:1", "lightup:7x7:easy:2", "tents:8x8:medium:2",
            "tents:8x8:hard:1", "solo:3x3:hard:2", "lightup:7x7:hard:1", "solo:3x3:medium:2", "pattern:10x10:medium:1",
            "solo:3x3x:easy:1", "pattern:10x10:hard:1"]
GRADES = {True: {"easy": "singles", "medium": "houses|crossings", "hard": "search ([2-9]|1[0-9]|20)", "any": ".+"},  # of Solo
          False: {"easy": "lines|local", "long": "lines|local", "medium": "search [2-4]", "hard": "search ([5-9]|1[0-9]|20)",
                  "any": ".+"}}
RULES = {"solo": "each block", "pattern": "Between two runs", "lightup": "No bulb may stand", "tents": "No two tents touch"}
POINTS = 6
DOTS = 288  # to an inch, so 4 to a point


def pages(bench, path):
    """The text of each page."""
    return bench.good(["pdftotext", "-raw", path, "-"]).split("\f")[:-1]


def information(bench, path):
    return dict(re.findall(r"^([^:\n]+):\s+(.*)$", bench.good(["pdfinfo", path]), re.M))


def table(path):
    with open(path, encoding="utf-8", newline="") as file:
        return list(csv.DictReader(file))


def squeezed(text):
    return re.sub(r"\s", "", text)


def make(bench, name, *words):
    """A book, what is said of it, and its table."""
    path = bench.folder / name
    said = bench.good([BOOK, *words[:-1], path, *words[-1]])
    return path, said, table(path.with_suffix(".csv"))


def test_whole(bench):
    """a book of all games: pages, title, rules, and each puzzle's number, grade and ID; each has one solution and its level"""
    path, said, rows = make(bench, "book.pdf", "--title", "Sunday <&> ünd", CHAPTERS)
    known, text = information(bench, path), pages(bench, path)
    assert said == f"{path}: {len(rows)} puzzles, {len(text)} pages\n" and known["Pages"] == str(len(text)), f"{said}{known}"
    assert known["Title"] == "Sunday <&> ünd" and "A4" in known["Page size"], str(known)
    assert "Sunday <&> ünd" in text[0] and "21 puzzles" in text[0] and "Contents" in text[1], text[0] + text[1]
    examples = dict(re.findall(r'"(\w+)": "(\dx[^"]+)"', (SOURCES / "puzzles" / "book" / "pages.py").read_text()))
    for game, words in RULES.items():
        answer = bench.good([bench.program, "solve", "--", game, examples[game]])
        assert answer.startswith("one\n"), f"the example of {game} hasn't one solution"
        assert sum(squeezed(words) in squeezed(page) for page in text) == 1, f"rules of {game}"
    wanted = [(game, size, level) for game, size, level, count in map(parts, sorted(CHAPTERS, key=place)) for _ in range(count)]
    assert [(row["game"], row["size"], row["level"]) for row in rows] == wanted, f"{rows}"
    assert len({row["id"] for row in rows}) == len(rows) == 21, "a puzzle twice"
    for row in rows:
        page = squeezed(text[int(row["page"]) - 1])
        assert squeezed(f"{row['number']} · {row['grade']}") in page and row["id"] in page, f"not on its page: {row}"
        assert row["grade"] == bench.grade(row["game"], row["id"]), f"the program's grade is another: {row}"
        assert re.fullmatch(GRADES[row["game"] == "solo"][row["level"]], row["grade"]), f"the level is another: {row}"
        answer = bench.good([bench.program, "solve", "--", row["game"], row["id"]])
        assert answer.startswith("one\n"), f"not one solution: {row}"
    assert squeezed(text[-1]).startswith("Solutions"), text[-1]


def parts(word):
    game, size, level, count = word.split(":")
    return game, size, level, int(count)


def place(word):
    """The games come in the order in which they are first named."""
    return ["solo", "pattern", "lightup", "tents"].index(word.split(":")[0])


def words_of(bench, path, page):
    """What stands on a page, each with its box in points."""
    text = bench.good(["pdftotext", "-bbox", "-f", str(page), "-l", str(page), path, "-"])
    found = re.findall(r'<word xMin="([\d.]+)" yMin="([\d.]+)" xMax="([\d.]+)" yMax="([\d.]+)">([^<]*)<', text)
    return [(html.unescape(word), *map(float, box)) for *box, word in found]


def test_solutions(bench):
    """the solution of a Solo is the program's, its numbers stand as they should, and are 6 points high at least"""
    for size in ("3x3", "4x4", "5x5"):
        path, _, rows = make(bench, f"solo{size}.pdf", "--symmetric", [f"solo:{size}:any:1"])
        last = int(information(bench, path)["Pages"])
        found = [word for word in words_of(bench, path, last) if word[0].isdigit()]
        head, label, foot = found.pop(0), found.pop(0), found.pop()
        assert (head[0], label[0], foot[0]) == ("1", "1", str(last)), f"{head} {label} {foot}"
        middles = [word[2] + word[4] for word in found]
        pitch = (max(middles) - min(middles)) / (math.isqrt(len(found)) - 1)
        found.sort(key=lambda word: (round((word[2] + word[4] - min(middles)) / pitch), word[1]))
        answer = bench.good([bench.program, "solve", "--", "solo", rows[0]["id"]]).split()[1:]
        assert "".join(word[0] for word in found) == "".join(answer), f"{size}: the grid is another one: {found[:20]}"
        height = min(heights(bench, path, last, found))
        assert height >= POINTS, f"{size}: numbers of {height} points"


def heights(bench, path, page, boxes):
    """The points from top to bottom of the ink in each box of a page."""
    stem = bench.folder / "page"
    bench.good(["pdftoppm", "-gray", "-singlefile", "-r", str(DOTS), "-f", str(page), "-l", str(page), path, stem])
    content = stem.with_suffix(".pgm").read_bytes()
    head = re.match(rb"P5\s(\d+)\s(\d+)\s255\s", content)
    width, first = int(head[1]), head.end()
    for _, left, top, right, bottom in boxes:
        columns = [first + round(side * DOTS / 72) for side in (left, right)]
        dark = [y for y in range(int(top * DOTS / 72), int(bottom * DOTS / 72))
                if min(content[columns[0] + y * width:columns[1] + y * width], default=255) < 128]
        yield (max(dark) - min(dark) + 1) * 72 / DOTS if dark else 0


def test_symmetric(bench):
    """symmetric givens look the same upside down, and no pair of them may go"""
    chapters = ["solo:3x3:easy:2", "solo:2x3:hard:1", "solo:2x3x:easy:1"]
    _, _, rows = make(bench, "symmetric.pdf", "--symmetric", "--seed", "40", chapters)
    for row in rows:
        cells = [sign for token in re.findall(r"[a-z]|\d+", row["id"].partition(":")[2])
                 for sign in ([token] if token.isdigit() else [""] * (ord(token) - 96))]
        assert [bool(cell) for cell in cells] == [bool(cell) for cell in cells[::-1]], f"not symmetric: {row}"
        budget = "0" if row["level"] == "easy" else "20"
        for at in range((len(cells) + 1) // 2):
            if cells[at]:
                fewer = [("" if place in (at, len(cells) - 1 - at) else cell) for place, cell in enumerate(cells)]
                text = row["size"] + ":" + "_".join(cell or "a" for cell in fewer)
                answer = bench.run([bench.program, "solve", f"--budget={budget}", "--", "solo", text]).stdout
                assert not answer.startswith("one"), f"the pair of place {at} may go: {row}"


def test_same(bench):
    """the same words make the same bytes, later too, and after a run that was stopped; another seed makes another book"""
    chapters = ["solo:3x3:hard:12", "tents:8x8:easy:4", "pattern:10x10:any:4", "lightup:7x7:any:4"]
    first, _, _ = make(bench, "first.pdf", "--symmetric", chapters)
    time.sleep(1.1)
    second = bench.folder / "second.pdf"
    second.write_bytes(b"an older book")
    run = bench.start([BOOK, "--symmetric", second, *chapters])
    part = second.with_name("second.pdf.part")
    wait_until(lambda: part.exists() and part.read_bytes().count(b"\n") > 20, SECONDS, "nothing was made")
    run.send_signal(2)
    _, errors = run.communicate(timeout=SECONDS)
    assert run.returncode == 130 and without_progress(errors) == "puzzles-book: stopped\n", f"status {run.returncode}: {errors}"
    assert not children(run.pid), "something runs on after Ctrl-C"
    assert second.read_bytes() == b"an older book" and part.exists(), "Ctrl-C left another book, or lost what was made"
    with open(part, "ab") as torn:
        torn.write(b'\0\0no JSON\n{"solo 3x3 20 1": ["3x')  # as a crash may leave it
    make(bench, "second.pdf", "--symmetric", chapters)
    assert not part.exists(), "the journal is still there"
    for suffix in (".pdf", ".csv"):
        assert first.with_suffix(suffix).read_bytes() == second.with_suffix(suffix).read_bytes(), f"other bytes in {suffix}"
    third, _, _ = make(bench, "third.pdf", "--symmetric", "--seed", "900", ["solo:3x3:hard:2"])
    assert third.with_suffix(".csv").read_bytes() != first.with_suffix(".csv").read_bytes(), "another seed, the same book"


def test_papers(bench):
    """on letter each puzzle is inside its page, and so are large ones; what doesn't fit is told"""
    chapters = ["pattern:25x25:any:1", "tents:20x20:any:1", "lightup:14x14:any:1"]
    path, _, rows = make(bench, "letter.pdf", "--paper", "letter", chapters)
    known = information(bench, path)
    assert "letter" in known["Page size"] and len(rows) == 3, str(known)
    for page in range(1, int(known["Pages"]) + 1):
        for word, left, top, right, bottom in words_of(bench, path, page):
            assert 20 < left < right < 592 and 20 < top < bottom < 772, f"page {page}: {word} stands outside"
    bench.told([BOOK, bench.folder / "large.pdf", "pattern:80x80:any:1"], 2, "doesn't fit the paper")


def test_faults(bench):
    """bad words, a folder that can't be written, a full disk, a missing program or browser: one sentence, and nothing is lost"""
    book, one = bench.folder / "fault.pdf", "solo:2x2:any:1"
    for word in ("solo", "solo:3x3:easy:0", "solo:3x3:easy:x", "chess:3x3:easy:1", "solo:3:easy:1:2", "tents:3x3:any:1",
                 "solo:9x9:any:1", "solo:3x3:\udcff:1", "solo:3x3:any:" + "9" * 5000):
        others = {"tents:3x3:any:1": "4x4 at least", "solo:9x9:any:1": "the size 9x9 is refused"}
        bench.told([BOOK, book, word], 2, others.get(word, "isn't GAME:SIZE:LEVEL:COUNT"))
    bench.told([BOOK, book, "tents:8x8:houses:1"], 2, "houses is no level of tents")
    bench.told([BOOK, "--paper", "A3", book, one], 2, "A3 is none of A4")
    for words in (["--seed", "-1"], ["--seconds", "0"], ["--seconds", "nan"], ["--seconds", "inf"]):
        bench.told([BOOK, *words, book, one], 2, "a seed is")
    bench.told([BOOK, bench.folder / "book.txt", one], 2, "ends in .pdf")
    bench.told([BOOK, "--program", "nowhere", book, one], 7, "no program nowhere")
    bench.told([BOOK, "--program", "/bin/true", book, one], 7, "is not the program")
    bench.told([BOOK, "/proc/none.pdf", one], 6, "/proc/none.pdf.part")
    bench.told([BOOK, bench.folder / "no" / "book.pdf", one], 6, "No such file")
    book.write_bytes(b"an older book")
    folder = bench.folder / "few"
    folder.mkdir()
    (folder / "python3").symlink_to(bench.good(["python3", "-c", "import sys; print(sys.executable)"]).strip())
    bench.told([BOOK, "--program", bench.program, book, one], 7, "no chromium", PATH=str(folder))
    (folder / "chromium").write_text("#!/bin/sh\nexit 3\n")
    (folder / "chromium").chmod(0o755)
    bench.told([BOOK, "--program", bench.program, book, one], 7, "chromium ended with status 3", PATH=f"{folder}:/usr/bin")
    bench.told([BOOK, book, "lightup:2x2:hard:1"], 7, "1,000 seeds make 0 puzzles of lightup 2x2, hard")
    bench.told([BOOK, book, "lightup:30x30:any:1"], 7, "64 seeds make 0 puzzles of lightup 30x30, any")
    assert book.read_bytes() == b"an older book", "the older book is lost"
    (folder / "chromium").write_text("#!/bin/sh\nkill -9 $$\n")
    bench.told([BOOK, "--program", bench.program, book, one], 7, "chromium ended by signal 9", PATH=f"{folder}:/usr/bin:/bin")
    assert book.read_bytes() == b"an older book", "a killed chromium lost the older book"
    assert book.with_name("fault.pdf.part").exists(), "a killed chromium lost what was made"
    return full_disk(bench)


def full_disk(bench):
    disk = bench.small_disk("disk", "size=24k")
    if not disk:
        pytest.skip("this user may not mount, for a full disk")
    try:
        (disk / "book.pdf").write_bytes(b"old")
        bench.told([BOOK, disk / "book.pdf", "solo:3x3:any:6"], 6, "No space left")
        assert (disk / "book.pdf").read_bytes() == b"old", "the older book is lost"
        assert (disk / "book.pdf.part").stat().st_size > 0, "what was made is lost"
        assert {path.name for path in disk.iterdir()} == {"book.pdf", "book.pdf.part"}, "something is left"
    finally:
        bench.unmount(disk)


def test_temporary(bench):
    """no room in the folder for temporary files, for the page or for its PDF: one sentence, and nothing is lost"""
    book, chapter = bench.folder / "book.pdf", "solo:2x2:any:1"
    book.write_bytes(b"an older book")
    for size, sentence in (("4k", "No space left on device: "), ("2m", "chromium wrote no whole PDF")):
        disk = bench.small_disk("temporary", f"size={size}")
        if not disk:
            pytest.skip("this user may not mount")
        try:
            bench.told([BOOK, book, chapter], 6, sentence, TMPDIR=str(disk))
            assert book.read_bytes() == b"an older book", "another book in the older one's place"
            assert book.with_name("book.pdf.part").stat().st_size > 0, "what was made is lost"
            assert not [*disk.iterdir()], "something is left in the folder"
        finally:
            bench.unmount(disk)
    _, _, rows = make(bench, "book.pdf", [chapter])
    assert len(rows) == 1 and not book.with_name("book.pdf.part").exists(), "it didn't go on"


def test_after(bench):
    """a second volume behind the table of the first, or of two, has none of their puzzles"""
    chapters, ids = ["solo:3x3:easy:8", "tents:8x8:easy:4", "lightup:7x7:any:4"], []
    words = []
    for name in ("first", "second", "third"):
        path, _, rows = make(bench, f"{name}.pdf", *words, chapters)
        ids += [row["id"] for row in rows]
        words += ["--after", path.with_suffix(".csv")]
    assert len(set(ids)) == len(ids) == 48, f"{len(ids) - len(set(ids))} puzzles come again"
    (bench.folder / "other.csv").write_text("a,b\n1,2\n")
    bench.told([BOOK, "--after", bench.folder / "other.csv", bench.folder / "x.pdf", *chapters], 2, "no table of a book")
    bench.told([BOOK, "--after", bench.folder / "none.csv", bench.folder / "x.pdf", *chapters], 6, "No such file")

