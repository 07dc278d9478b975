"""Books as a publisher asks for them: puzzles that get harder, none twice, made again, a title page, papers, large boards."""
import re

import pytest

from book.test_book import BOOK, information, make, pages, squeezed

pytestmark = [pytest.mark.slow, pytest.mark.needs("chromium", "pdftotext", "pdfinfo", "pdfimages")]
RANKS = ["singles", "lines", "local", "houses", "crossings", "search"]
CHAPTERS = ["solo:3x3:hard:6", "solo:3x3x:easy:2", "pattern:10x10:any:3", "tents:8x8:easy:2"]
ROW = ".".join(["2", *["1"] * 19])  # 40 cells: each row of it is filled in one way
LARGE = "40x40:" + "/".join(["40" if x < 2 or x % 2 else "" for x in range(40)] + [ROW] * 40)
FRONT = """<p>Imprint</p><script>document.body.append("SCRIPTED")</script><iframe src="file:///etc/passwd"></iframe>"""
PAPERS = {"7x10": (177.8, 254), "5.5x8.5": (139.7, 215.9), "5x8": (127, 203.2), "8.5x8.5": (215.9, 215.9), "170x240": (170, 240)}


def hardness(row):
    word, _, trials = row["grade"].partition(" ")
    return RANKS.index(word), int(trials or 0)


def test_rising(bench):
    """the puzzles of a chapter get harder: by rule set, then by trials"""
    _, _, rows = make(bench, "rising.pdf", ["solo:3x3:hard:10", "solo:3x3:any:6"])
    for some in (rows[:10], rows[10:]):
        found = [hardness(row) for row in some]
        assert found == sorted(found) and len(set(found)) > 1, f"{found}"


def test_again(bench):
    """a book's own table makes it again, byte for byte, with its chapters, levels, seeds and titles"""
    fish = bench.folder / "fish.txt"
    fish.write_text("5x5:2/4/4/4/2/1.1/5/5/3/1\n")
    first, _, rows = make(bench, "first.pdf", [*CHAPTERS, f"pattern:@{fish}:Of the sea"])
    second, _, again = make(bench, "second.pdf", "--seed", "500", [f"@{first.with_suffix('.csv')}"])
    assert rows == again and len(rows) == 14, f"{again}"
    assert first.read_bytes() == second.read_bytes(), "another book"
    assert any(page.startswith("Pattern, Of the sea") for page in pages(bench, first)), "no title of the chapter"
    _, _, third = make(bench, "third.pdf", [f"solo:@{first.with_suffix('.csv')}"])
    assert [row["id"] for row in third] == [row["id"] for row in rows if row["game"] == "solo"], f"{third}"
    bench.told([BOOK, bench.folder / "x.pdf", f"@{fish}"], 2, "is no table of a book: say the game")
    bench.told([BOOK, bench.folder / "x.pdf", f"lightup:@{first.with_suffix('.csv')}"], 2, "has 0 puzzles of lightup")


def test_none_twice(bench):
    """two files with one puzzle are refused by their names, a turned one is told, and none that a file has is made once more"""
    one, two = bench.folder / "one.txt", bench.folder / "two.txt"
    text = bench.generate("solo", "3x3", 5)[0]
    one.write_text(f"{text}\n")
    two.write_text(f"{bench.generate('solo', '3x3', 6)[0]}\n{text}\n")
    bench.told([BOOK, bench.folder / "x.pdf", f"solo:@{one}", f"solo:@{two}"], 2, f"{one} and {two} have the same puzzle")
    cells = [sign for part in re.findall(r"[a-z]|\d+", text.partition(":")[2])
             for sign in ([part] if part.isdigit() else [""] * (ord(part) - 96))]
    two.write_text("3x3:" + "_".join(sign or "a" for sign in cells[::-1]) + "\n")
    done = bench.run([BOOK, bench.folder / "turned.pdf", f"solo:@{one}", f"solo:@{two}"])
    assert done.returncode == 0 and "puzzles 1 and 2 are alike but for turns" in done.stderr, done.stderr
    first, _, rows = make(bench, "first.pdf", ["solo:3x3:easy:3"])
    _, _, both = make(bench, "both.pdf", [f"solo:@{first.with_suffix('.csv')}", "solo:3x3:easy:3"])
    assert len({row["id"] for row in both}) == len(both) == 6, f"{both}"


def test_title(bench):
    """subtitle, author and a picture stand on the first page; what is no picture is refused"""
    picture = bench.folder / "p.svg"
    picture.write_text('<svg xmlns="http://www.w3.org/2000/svg" viewBox="0 0 9 9" width="90"><text y="8">DRAWN</text></svg>')
    words = ["--subtitle", "For <two> evenings", "--author", "A. Writer", "--picture", picture]
    path, _, _ = make(bench, "title.pdf", *words, ["solo:2x2:any:1"])
    first = squeezed(pages(bench, path)[0])
    for text in ("Puzzles", "For <two> evenings", "A. Writer", "1 puzzle"):
        assert squeezed(text) in first, f"{text} isn't on the first page: {first}"
    picture.write_text("none")
    bench.told([BOOK, "--picture", picture, bench.folder / "x.pdf", "solo:2x2:any:1"], 2, "is no PNG, JPEG or SVG")
    bench.told([BOOK, "--author", "x" * 201, bench.folder / "x.pdf", "solo:2x2:any:1"], 2, "at most 200 letters")
    bench.told([BOOK], 2, "say what to write, as book.pdf")


def test_other_papers(bench):
    """more trim sizes, and any width and height: rules are whole there; other words are refused"""
    for paper, sides in PAPERS.items():
        path, _, _ = make(bench, f"{paper}.pdf", "--paper", paper, ["solo:3x3:any:1", "lightup:7x7:any:1", "tents:8x8:any:1"])
        found = [float(size) * 25.4 / 72 for size in re.findall(r"[\d.]+", information(bench, path)["Page size"])[:2]]
        assert all(abs(there - wanted) < .5 for there, wanted in zip(found, sides)), f"{paper}: {found}"
        text = squeezed("".join(pages(bench, path)))
        for rule in ("No two tents touch", "and hard ones more", "hard ones search"):
            assert squeezed(rule) in text, f"{paper}: the rules are cut off before {rule}"
    for word in ("A3", "90x200", "200x451", "200", "2e2x300", "-200x300"):
        bench.told([BOOK, f"--paper={word}", bench.folder / "x.pdf", "solo:2x2:any:1"], 2, "no width and height of 100 to 450 mm")


def test_large_boards(bench):
    """a Pattern of 40x40 goes on A4 with smaller cells, which have to be asked for; the largest one is named"""
    boards = bench.folder / "boards.txt"
    boards.write_text(f"5x5:2/4/4/4/2/1.1/5/5/3/1\n{LARGE}\n")
    said = "pattern 40x40 doesn't fit the paper: its cells would be 3."
    bench.told([BOOK, bench.folder / "x.pdf", f"pattern:@{boards}"], 2, said)
    path, _, rows = make(bench, "large.pdf", "--bare", "--least-cell", "3.3", [f"pattern:@{boards}"])
    assert [row["size"] for row in rows] == ["5x5", "40x40"] and "A4" in information(bench, path)["Page size"], f"{rows}"
    bench.told([BOOK, "--least-cell", "2", bench.folder / "x.pdf", "solo:2x2:any:1"], 2, "the least cell has 3 to 20 mm")


def test_by_size(bench):
    """a file of several sizes gives a chapter for each, the smaller first, whose cells fit it, and its table gives them again"""
    mixed = bench.folder / "mixed.txt"
    texts = [bench.generate("pattern", size, seed)[0] for seed in (1, 2) for size in ("25x25", "5x5", "10x10")]
    mixed.write_text("\n".join(texts) + "\n")
    words = ["--svg", bench.folder / "drawn", "--by-size"]
    path, _, rows = make(bench, "sizes.pdf", *words, [f"pattern:@{mixed}:Of all sizes", "solo:2x2:any:1"])
    assert [row["id"] for row in rows] == [texts[at] for at in (1, 4, 2, 5, 0, 3)] + [rows[6]["id"]], f"{rows}"
    titles = [f"Of all sizes, {side}×{side}" for side in (5, 10, 25) for _ in range(2)]
    assert [row["chapter"] for row in rows] == [*titles, ""], f"{rows}"
    text = pages(bench, path)
    for row in rows[:6]:
        assert text[int(row["page"]) - 1].startswith(f"Pattern, {row['chapter']}"), f"{row}"
    assert len({row["page"] for row in rows[:6]}) == 4, "both of 25x25 on one page, or a page for each small one"
    _, _, together = make(bench, "together.pdf", [f"pattern:@{mixed}"])
    assert [row["id"] for row in together] == texts and len({row["page"] for row in together}) == 6, f"{together}"
    _, _, again = make(bench, "again.pdf", [f"@{path.with_suffix('.csv')}"])
    assert again == rows, f"{again}"


def test_least_pages(bench):
    """a printer's least number of pages is met by blank ones, with the multiple too"""
    for words, count in ((["--least-pages", "24"], "24"), (["--least-pages", "25", "--multiple", "4"], "28"),
                         (["--least-pages", "2"], None)):
        path, said, _ = make(bench, "least.pdf", *words, ["solo:2x2:any:1"])
        found = information(bench, path)["Pages"]
        assert found == (count or found) and int(found) >= 4 and said.endswith(f"{found} pages\n"), f"{words}: {found} {said}"
    bench.told([BOOK, "--least-pages", "0", bench.folder / "x.pdf", "solo:2x2:any:1"], 2, "the least pages are 1 to 2000")


def test_front_is_text(bench):
    """no script of the front matter runs, and no file comes into the book by it"""
    front = bench.folder / "front.html"
    front.write_text(FRONT)
    path, _, _ = make(bench, "front.pdf", "--front", front, ["solo:2x2:any:1"])
    text = "".join(pages(bench, path))
    assert "Imprint" in text and "SCRIPTED" not in text and "root:" not in text, text[:500]


def test_diagonals(bench):
    """the rule of the diagonals stands in a book with a Solo X alone"""
    for chapter, is_there in (("solo:2x3:any:1", False), ("solo:2x3x:any:1", True)):
        for words, rule in ((["--words", "german"], "diebeidenDiagonalen"), ([], "thetwodiagonals")):
            path, _, _ = make(bench, "rules.pdf", *words, [chapter])
            assert (rule in squeezed("".join(pages(bench, path)))) == is_there, f"{chapter} {words}"
