"""Books for the printer, with trim sizes, chosen puzzles, other words and drawings."""
import collections
import csv
import json
import re
import xml.etree.ElementTree

import pytest

from support.trial import wait_until

from support.bench import SECONDS, SOURCES
from book.test_book import BOOK, heights, information, make, pages, squeezed, table, words_of

pytestmark = [pytest.mark.slow, pytest.mark.needs("chromium", "pdftotext", "pdfinfo", "pdftohtml")]
MILLIMETRE = 72 / 25.4
TRIMS = {"A4": (210, 297, 15), "letter": (215.9, 279.4, 15), "8x10": (203.2, 254, 14), "6x9": (152.4, 228.6, 12),
         "A5": (148, 210, 12)}
GUTTER = 9
FOOT = 13  # millimetres from the edge, below which only the foot stands
CHAPTERS = ["solo:3x3:any:3", "solo:2x3x:any:1", "pattern:10x10:any:2", "pattern:15x15:any:1", "lightup:7x7:any:4",
            "tents:8x8:any:3"]
FRONT = "<p>Imprint &amp; ISBN</p><hr><h2>To the reader</h2><p>Take a pencil.</p>"


def test_trims(bench):
    """on five trim sizes all stands inside of the margins, more of them where it is bound, and page numbers stand outside"""
    for paper, (width, height, side) in TRIMS.items():
        path, _, _ = make(bench, f"{paper}.pdf", "--paper", paper, "--gutter", str(GUTTER), "--words", "usual", CHAPTERS)
        known = information(bench, path)
        found = [float(size) / MILLIMETRE for size in re.findall(r"[\d.]+", known["Page size"])[:2]]
        assert all(abs(there - wanted) < .5 for there, wanted in zip(found, (width, height))), f"{paper}: {known['Page size']}"
        for page in range(2, int(known["Pages"]) + 1):
            inner, outer = side + GUTTER, side
            least, most = (inner, width - outer) if page % 2 else (outer, width - inner)
            there = [(word, *(edge / MILLIMETRE for edge in box)) for word, *box in words_of(bench, path, page)]
            for word, left, top, right, bottom in there:
                assert least - 1 < left and right < most + 1 and 8 < top and bottom < height - 6, (
                    f"{paper}, page {page}: {word} stands outside: {left:.0f} to {right:.0f}, {top:.0f} to {bottom:.0f}")
            numbers = [word for word in there if word[4] > height - FOOT and word[0] == str(page)]
            place = numbers[0][3] if page % 2 else numbers[0][1]
            assert abs(place - (most if page % 2 else least)) < 2, f"{paper}, page {page}: its number stands at {place:.0f} mm"
        texts = squeezed("".join(pages(bench, path)))
        for rule in ("No two tents touch", "and hard ones more", "Between two runs"):
            assert squeezed(rule) in texts, f"{paper}: the rules are cut off before {rule}"


def test_filled(bench):
    """pages of a chapter have as many puzzles each, if it comes to no more pages, and puzzles are as large as there is room"""
    path, _, rows = make(bench, "filled.pdf", ["tents:10x10:any:8", "lightup:7x7:any:6"])
    counts = collections.Counter((row["game"], int(row["page"])) for row in rows)
    assert sorted(counts.values()) == [4, 4, 6], f"{counts}"
    page = next(page for game, page in counts if game == "lightup")
    lowest = max(bottom for _, _, _, _, bottom in words_of(bench, path, page) if bottom < (297 - FOOT) * MILLIMETRE) / MILLIMETRE
    assert lowest > 230, f"six Light Up end at {lowest:.0f} mm of A4"


def test_kinds(bench):
    """bare books have neither grades nor IDs; large print has a puzzle a page, with numbers of 10 points in solutions"""
    path, _, rows = make(bench, "bare.pdf", "--bare", CHAPTERS)
    text = squeezed("".join(pages(bench, path)))
    assert not [row["id"] for row in rows if row["id"] in text], "an ID in a bare book"
    assert "Whatthegradesmean" not in text and "·" not in text, "a grade in a bare book"
    path, _, rows = make(bench, "large.pdf", "--large", "--bare", "--paper", "8x10", ["solo:3x3:any:3", "lightup:7x7:any:2"])
    assert len({row["page"] for row in rows}) == len(rows), "two puzzles on one page of large print"
    boxes = [word for word in words_of(bench, path, int(rows[0]["page"])) if word[0].isdigit() and 150 < word[2] < 650]
    assert min(heights(bench, path, int(rows[0]["page"]), boxes)) > 20, "numbers under 20 points in a puzzle of large print"
    page = int(rows[0]["solution_page"])
    boxes = [word for word in words_of(bench, path, page) if word[0].isdigit() and word[4] - word[2] > 12]
    assert len(boxes) >= 3 * 81, f"{len(boxes)} large numbers in three solutions of Solo"
    assert min(heights(bench, path, page, boxes)) >= 10, "numbers under 10 points in a solution of large print"


def test_front(bench):
    """front matter, links, an outline, rules on right pages and a multiple of pages; what is no text is refused"""
    matter = bench.folder / "front.html"
    matter.write_text(FRONT)
    path, _, rows = make(bench, "front.pdf", "--front", matter, "--right", "--multiple", "8", "--paper", "6x9", CHAPTERS)
    text = pages(bench, path)
    assert "Imprint & ISBN" in text[1] and "Take a pencil." in text[2] and "Contents" in text[3], f"{text[1:4]}"
    assert len(text) % 8 == 0, f"{len(text)} pages"
    rules = [number for number, page in enumerate(text, 1) if page.startswith("How ") and "An example" in page]
    assert len(rules) == 4 and all(number % 2 for number in rules), f"rules on pages {rules}"
    tree = bench.good(["pdftohtml", "-xml", "-stdout", "-i", path])
    names = re.findall(r'<item page="\d+">([^<]*)</item>', tree)
    for name in ("Contents", "How Solo goes", "Tents 8x8", "Pattern 15x15"):
        assert sum(name in one for one in names) == 1, f"{name} in the outline: {names}"
    listed = re.findall(r'<a href="[^"#]*#(\d+)">([^<]*)</a>', tree.partition("Contents")[2].partition("</page>")[0])
    assert len(listed) >= 11 and all(name == page for page, name in listed if name.isdigit()), f"links of the contents: {listed}"
    for row in rows:
        assert text[int(row["solution_page"]) - 1].startswith("Solutions"), f"no solutions on page {row['solution_page']}"
    matter.write_bytes(b"\xff\xfe")
    bench.told([BOOK, "--front", matter, bench.folder / "x.pdf", *CHAPTERS], 2, "no text in UTF-8")
    bench.told([BOOK, "--front", "nowhere", bench.folder / "x.pdf", *CHAPTERS], 6, "nowhere")
    for words in (["--gutter", "31"], ["--gutter", "nan"], ["--multiple", "0"]):
        bench.told([BOOK, *words, bench.folder / "x.pdf", *CHAPTERS], 2, "a gutter has at most")
    bench.told([BOOK, "--title", "x" * 201, bench.folder / "x.pdf", *CHAPTERS], 2, "at most 200 letters")


def test_chosen(bench):
    """a chapter of a file has its puzzles in their order: IDs, a drawing's, and an older book's table; others are refused"""
    ids, drawn = bench.folder / "ids.txt", bench.folder / "fish.txt"
    texts = [bench.generate("solo", size, seed)[0] for seed in (5, 3) for size in ("3x3", "2x3")]
    ids.write_text(f"{texts[0]}\n\n{texts[1]}\r\n" + "\n".join(texts[2:]))
    drawn.write_text("5x5:2/4/4/4/2/1.1/5/5/3/1\n")
    path, _, rows = make(bench, "chosen.pdf", [f"solo:@{ids}", f"pattern:@{drawn}", "solo:3x3:any:1"])
    assert [row["id"] for row in rows] == [*texts, rows[4]["id"], "5x5:2/4/4/4/2/1.1/5/5/3/1"], f"{[row['id'] for row in rows]}"
    assert [row["seed"] for row in rows] == ["", "", "", "", "1", ""], "seeds of chosen puzzles"
    text = pages(bench, path)
    for heading in ("Pattern, fish", "Solo, ids"):
        assert any(page.startswith(heading) for page in text), f"no heading {heading}"
    for row in rows:
        answer = bench.good([bench.program, "solve", "--", row["game"], row["id"]]).splitlines()[1:]
        assert row["solution"] == "/".join(answer) and row["grade"] == bench.grade(row["game"], row["id"]), f"{row}"
    _, _, again = make(bench, "again.pdf", "--seed", "77", [f"solo:@{path.with_suffix('.csv')}"])
    assert [row["id"] for row in again] == [row["id"] for row in rows if row["game"] == "solo"], "an older table"
    for content, sentence in (("3x3:x\n", "ID 1 is refused"), (f"{texts[0]}\n{texts[0]}\n", "ID 2 is the puzzle of ID 1 again"),
                              ("", "has 0 puzzles of solo")):
        ids.write_text(content)
        bench.told([BOOK, bench.folder / "x.pdf", f"solo:@{ids}"], 2, sentence)
    bench.told([BOOK, bench.folder / "x.pdf", "solo:@nowhere"], 2, "nowhere: No such file")
    ids.write_text("2x2:p\n")
    bench.told([BOOK, bench.folder / "x.pdf", f"solo:@{ids}"], 2, "`solve` answers several")


def test_levels(bench):
    """houses and crossings are levels of Solo, and long is one of the others, with these grades and no trial; long ones take longer"""
    chapters = ["solo:3x3:houses:3", "solo:3x3:crossings:2", "pattern:10x10:long:4", "pattern:10x10:easy:4"]
    _, _, rows = make(bench, "levels.pdf", "--words", "usual", chapters)
    grades = [bench.grade(row["game"], row["id"]) for row in rows]
    assert grades == ["houses"] * 3 + ["crossings"] * 2 + ["lines"] * 8, f"{rows}"
    lengths = [bench.run([bench.program, "grade", "--trace", "--", "pattern", row["id"]]).stdout.count("\n") for row in rows[5:]]
    assert sum(lengths[:4]) > sum(lengths[4:]), f"lines of traces: {lengths}"
    bench.told([BOOK, bench.folder / "x.pdf", "solo:3x3:long:1"], 2, "long is no level of solo")


def test_said(bench):
    """the usual names, German, and a file of one's own stand in the book; texts that a book hasn't are refused"""
    chapters = ["solo:3x3:easy:1", "lightup:7x7:easy:1"]
    wanted = {"usual": ("Sudoku 9 by 9, easy", "How Akari goes"), "german": ("Sudoku 9 mal 9, leicht", "So geht Akari")}
    own = bench.folder / "own.json"
    own.write_text(json.dumps({"names": {"solo": "Su <Doku>"}, "contents": "What is in it"}))
    wanted[own] = ("Su <Doku> 3x3, easy", "What is in it")
    for words, texts in wanted.items():
        path, _, _ = make(bench, "said.pdf", "--words", words, chapters)
        there = squeezed("".join(pages(bench, path)))
        assert all(squeezed(text) in there for text in texts), f"{words}: not there: {texts}"
    english = json.loads((SOURCES / "puzzles/book/words/english.json").read_text())
    german = json.loads((SOURCES / "puzzles/book/words/german.json").read_text())
    same = {"heading of a file", "name"}
    assert set(english) - set(german) <= same, f"german.json lacks {set(english) - set(german) - same}"
    for content, sentence in (("{", "is no JSON"), ('{"hello": "x"}', "no such text"), ('{"names": "x"}', "must be an object"),
                              ('{"rules": {"solo": "x"}}', "a list of texts"), ('{"how": "{0}"}', "no fields but {name}"),
                              ('{"how": "{name"}', "no fields but"), ('{"contents": 3}', "must be a text")):
        own.write_text(content)
        bench.told([BOOK, "--words", own, bench.folder / "x.pdf", *chapters], 2, sentence)
    bench.told([BOOK, "--words", "nowhere.json", bench.folder / "x.pdf", *chapters], 6, "nowhere.json")


def test_drawn(bench):
    """each puzzle and each solution is a drawing of its own, with its numbers; the table has the solutions too"""
    folder = bench.folder / "drawings"
    _, _, rows = make(bench, "drawn.pdf", "--svg", folder, ["solo:3x3:any:2", "tents:8x8:any:9"])
    names = sorted(path.name for path in folder.iterdir())
    assert len(names) == 22 and names[:2] == ["01-solo-solution.svg", "01-solo.svg"], f"{names}"
    for row in rows:
        stem = f"{int(row['number']):02}-{row['game']}"
        for name, wanted in ((stem, re.findall("[0-9]+", row["id"].partition(":")[2])),
                             (f"{stem}-solution", re.findall("[0-9]", row["solution"]))):
            tree = xml.etree.ElementTree.parse(folder / f"{name}.svg")
            numbers = [element.text for element in tree.iter() if element.tag.endswith("text")]
            assert sorted(numbers) == sorted(wanted), f"{name}: {numbers}"


def test_together(bench):
    """the second of two runs at one book ends with a sentence, and the first is whole; a CSV of one's own is left alone"""
    path = bench.folder / "two.pdf"
    run = bench.start([BOOK, "--symmetric", path, "solo:3x3:hard:6"])
    part = path.with_name("two.pdf.part")
    wait_until(lambda: part.exists() and part.read_bytes().count(b"\n") > 2, SECONDS, "nothing was made")
    bench.told([BOOK, path, "solo:3x3:any:1"], 6, "another run makes this book")
    _, errors = run.communicate(timeout=SECONDS)
    assert run.returncode == 0 and len(table(path.with_suffix(".csv"))) == 6 and not part.exists(), f"{run.returncode}: {errors}"
    own = bench.folder / "own.csv"
    own.write_text("mine,alone\n1,2\n")
    bench.told([BOOK, bench.folder / "own.pdf", "solo:2x2:any:1"], 2, "own.csv is no table of a book")
    assert list(csv.reader(own.open())) == [["mine", "alone"], ["1", "2"]], "a CSV of one's own is lost"

