"""Sudokus and nonograms of other programs become IDs, and IDs become theirs."""
import json
import os
import re
import subprocess
import urllib.parse

import pytest

CONVERT = "puzzles-convert"
CELLS = "53..7....6..195....98....6.8...6...34..8.3..17...2...6.6....28....419..5....8..79"
SOLO = "3x3:5_3b7d6b1_9_5d9_8d6a8c6c3_4b8a3b1_7c2c6a6d2_8d4_1_9b5d8b7_9"
ROWS = [CELLS[at:at + 9] for at in range(0, 81, 9)]
RULED = [f"{row[:3]}|{row[3:6]}|{row[6:]}" for row in ROWS]
RULED = [*RULED[:3], "---+---+---", *RULED[3:6], "-----------", *RULED[6:]]
NON = """catalogue "webpbn.com #1"
title "Demo Puzzle from Front Page"
by "Jan Wolter"
width 5
height 4

rows
2
2,1

4
columns
1, 1
2,1
0
1
3

goal "01100011"
"""
PBN = """<?xml version="1.0"?>
<!DOCTYPE pbn SYSTEM "https://webpbn.com/pbn-0.3.dtd">
<puzzleset><puzzle type="grid" defaultcolor="black"><source>webpbn.com</source>
<color name="white" char=".">fff</color><color name="black" char="X">000</color>
<clues type="columns"><line><count>1</count></line><line></line><line><count>{count}</count></line></clues>
<clues type="rows"><line><count{more}>1</count><count>1</count></line></clues></puzzle></puzzleset>
"""


def taken(bench, kind, text, status=0):
    """The IDs that a file gives, and what is told of it."""
    path = bench.folder / "file"
    path.write_text(text)
    done = bench.run([CONVERT, "from", kind, path])
    assert done.returncode == status, f"{kind} {text[:60]!r}: status {done.returncode}: {done.stderr}"
    return done.stdout.splitlines(), done.stderr.replace(str(path), "file").splitlines()


def test_sudokus(bench):
    """lines of 81, 256 and 16 signs, .sdk and ruled grids give the IDs of their numbers; what is none is told and passed over"""
    rows = "\n".join(ROWS)
    files = [CELLS, CELLS.replace(".", "0"), rows, f"#A somebody\n[Puzzle]\n{rows}", "\n".join(RULED), "\ufeff" + CELLS]
    for text in files:
        assert taken(bench, "sudoku", text) == ([SOLO], []), f"{text}: {taken(bench, 'sudoku', text)}"
    text = "".join(f"Grid {number:02}\n{rows.replace('.', '0')}\n" for number in range(1, 4))
    assert taken(bench, "sudoku", text) == ([SOLO] * 3, []), "the file of Project Euler"
    text = f"{CELLS}\n{CELLS[:-1]}\n{CELLS[:-1]}Z\n# of four by four\n1...............\n{CELLS}\n"
    found, told = taken(bench, "sudoku", text, 2)
    assert found == [SOLO, "2x2:1o", SOLO], f"{found}"
    wanted = ["file:2: 80 cells are no square of square blocks", "file:3: 'Z' is no number of 1 to 9"]
    assert told == wanted, f"{told}"
    found, _ = taken(bench, "sudoku", "G" + "." * 255)
    assert found == ["4x4:16" + "z" * 9 + "u"], f"{found}"
    texts = [bench.generate("solo", size, seed, "--budget=0")[0] for size in ("3x3", "4x4", "2x2") for seed in (1, 2)]
    lines = bench.good([CONVERT, "to", "sudoku", "solo", "-"], "".join(f"{text}\n" for text in texts))
    assert taken(bench, "sudoku", lines)[0] == texts, lines
    bench.told([CONVERT, "to", "sudoku", "solo", "-"], 2, "blocks that aren't square", given="2x3:zj\n")


def test_tables(bench):
    """a table, ratings and remarks behind 81 signs give the puzzles, and of an .sdk with a state the puzzle alone"""
    solved = "534678912672195348198342567859761423426853791713924856961537284287419635345286179"
    zeros = CELLS.replace(".", "0")
    for text in (f"puzzle,solution\n{zeros},{solved}\n", f"id,puzzle,solution,clues,difficulty\n1,{CELLS},{solved},30,2.2\n",
                 f'"{zeros}","{solved}"\n', f"{CELLS} # the first of all\n", f"{CELLS};7.2\n", f"{CELLS},7.2\n",
                 f"{CELLS}:2:{solved}\n", f"ab12 {CELLS} 7.2\n", f"{CELLS}\t7.2\n"):
        assert taken(bench, "sudoku", text) == ([SOLO], []), f"{text}: {taken(bench, 'sudoku', text)}"
    state = "\n".join(solved[at:at + 9] for at in range(0, 81, 9))
    rows = "\n".join(ROWS)
    text = f"#A somebody\n[Puzzle]\n{rows}\n[State]\n{state}\n"
    assert taken(bench, "sudoku", text + text) == ([SOLO, SOLO], []), f"{taken(bench, 'sudoku', text + text)}"
    found, told = taken(bench, "sudoku", f"puzzle,solution\n{zeros},{solved}\n{zeros[:-1]},{solved[:-1]}\n{zeros},\n", 2)
    assert found == [SOLO, SOLO] and len(told) == 1 and told[0].startswith("file:3: "), f"{found} {told}"


@pytest.mark.skipif(not os.path.exists("/usr/games/sgt-solo"), reason="no sgt-puzzles")
def test_saves(bench):
    """games that the collection's own programs save give their IDs; of two games in one run the second one is told"""
    def save(game, size):
        path = bench.folder / f"{game}{size}"
        subprocess.run([f"/usr/games/sgt-{game}", "--generate", "1", "--save", path, "--save-suffix", ".sav", f"{size}#1"],
                       check=True, capture_output=True, timeout=120)
        made = subprocess.run([f"/usr/games/sgt-{game}", "--generate", "1", f"{size}#1"], check=True, capture_output=True,
                              timeout=120, text=True).stdout.strip()
        return path.with_name(f"{path.name}0.sav"), made.partition(":")[2]
    saved = {}
    for game, size in (("solo", "3x3du"), ("solo", "2x3xdt"), ("pattern", "10x10"), ("lightup", "7x7b20s4d0"),
                       ("tents", "8x8dt")):
        path, wanted = save(game, size)
        found = bench.good([CONVERT, "from", "save", path]).splitlines()
        head = re.match(r"\d+x\d+x?", size)[0]
        assert found == [f"{head}:{wanted}"], f"{game} {size}: {found}"
        saved[game] = path
    bench.told([CONVERT, "from", "save", saved["solo"], saved["tents"]], 2, "a puzzle of tents, and the first one is of solo")
    jigsaw, _ = save("solo", "9jdt")
    bench.told([CONVERT, "from", "save", jigsaw], 2, "a puzzle of solo that is refused")
    other = bench.folder / "other"
    other.write_text("SAVEFILE:41:Simon Tatham's Portable Puzzle Collection\nGAME    :4:Net1\n")
    bench.told([CONVERT, "from", "save", other], 2, "no saved game of Solo, Pattern, Light Up, Tents")


def test_links(bench):
    """links of puzz.link and pzpr give IDs and come of them; others are told by their line"""
    known = {"https://puzz.link/p?sudoku/4/4/1h4h1h4h4321": "2x2:1b4b1b4b4_3_2_1",
             "http://pzv.jp/p.html?sudoku/16/16/-10fz": None,
             "https://puzz.link/p?akari/3/3/g..g1g.h": "3x3:aBBa1aBb", "see https://puzz.link/p?lightup/4/2/6bl": "4x2:1a1e"}
    for link, wanted in known.items():
        found, told = taken(bench, "link", f"# a list\n\n{link}\n")
        assert not told and (found == [wanted] if wanted else found[0].startswith("4x4:16_15z")), f"{link}: {found} {told}"
    for game, sizes in (("solo", ("2x2", "3x3", "4x4")), ("lightup", ("7x7", "10x10", "5x9"))):
        texts = [bench.generate(game, size, seed, "--budget=5")[0] for size in sizes for seed in (1, 2)]
        links = bench.good([CONVERT, "to", "link", game, "-"], "".join(f"{text}\n" for text in texts))
        assert taken(bench, "link", links)[0] == texts, links
        assert all(urllib.parse.urlparse(link).netloc == "puzz.link" for link in links.splitlines()), links
    faults = {"https://puzz.link/p?slither/4/4/1h4": "a link of slither", "nonsense": "no link of puzz.link",
              "https://puzz.link/p?sudoku/6/6/1": "whose blocks aren't square",
              "https://puzz.link/p?sudoku/4/4/5": "its cells aren't",
              "https://puzz.link/p?akari/3/3/z.": "its cells aren't", "https://puzz.link/p?akari/3/3/f": "its cells"}
    for link, said in faults.items():
        _, told = taken(bench, "link", f"\n{link}\n", 2)
        assert len(told) == 1 and told[0].startswith("file:2: ") and said in told[0], f"{link}: {told}"
    bench.told([CONVERT, "to", "link", "solo", "-"], 2, "blocks that aren't square", given="2x3:zj\n")
    bench.told([CONVERT, "to", "link", "tents", "-"], 2, "link is of solo and lightup alone")


def test_opensudoku(bench):
    """the XML of OpenSudoku, of signs and of fields, gives IDs and comes of them; what is none is told"""
    zeros = CELLS.replace(".", "0")
    fields = {3: lambda sign: f"{sign if sign != '.' else 7}|0|{int(sign == '.')}|",  # a player's own 7s are none of the puzzle
              4: lambda sign: f"{sign if sign != '.' else 0}|0|0|{int(sign == '.')}|"}
    for number, field in fields.items():
        data = f"version: {number}\n" + "".join(map(field, CELLS))
        xml = f'<opensudoku><name>a</name><game data="{zeros}" /><game data="{data.replace(chr(10), "&#10;")}"/></opensudoku>'
        assert taken(bench, "opensudoku", xml) == ([SOLO, SOLO], []), f"{taken(bench, 'opensudoku', xml)}"
    made = bench.good([CONVERT, "to", "opensudoku", "solo", "-"], f"{SOLO}\n{SOLO}\n")
    assert zeros in made and taken(bench, "opensudoku", made) == ([SOLO, SOLO], []), made
    bench.told([CONVERT, "to", "opensudoku", "solo", "-"], 2, "9 by 9 cells alone", given="2x2:p\n")
    for text, said in (("<opensudoku/>", "there is no game"), ("none", "no XML"), ('<a><game data="1"/></a>', "no 81 cells"),
                       ('<!DOCTYPE a [<!ENTITY b "b">]><opensudoku/>', "entities of its own")):
        _, told = taken(bench, "opensudoku", text, 2)
        assert len(told) == 1 and said in told[0], f"{text}: {told}"


def test_nonograms(bench):
    """.non and the XML of webpbn give the IDs of their clues, and what is missing, coloured or no XML is told"""
    wanted = "5x4:1.1/2.1//1/3/2/2.1//4"
    assert taken(bench, "non", NON) == ([wanted], []), f"{taken(bench, 'non', NON)}"
    assert taken(bench, "non", NON + NON)[0] == [wanted] * 2, "two puzzles in one file"
    other = NON.replace("width 5\nheight 4", "height 4\nwidth 5")
    assert taken(bench, "non", other + NON + other) == ([wanted] * 3, []), "height before width"
    assert taken(bench, "pbn", PBN.format(count=1, more=""))[0] == ["3x1:1//1/1.1"], "webpbn"
    for kind, text, fault in (("non", NON.replace("height 4", "height 5"), "rows or columns are missing"),
                              ("non", CELLS, "no line `width`"),
                              ("non", NON.replace("2,1\n\n4", "2,9\n\n4"), "line 6 too full"), ("pbn", CELLS, "no XML"),
                              ("pbn", PBN.format(count=1, more=' color="red"'), "more colours"),
                              ("pbn", "<puzzleset/>", "no puzzle in it"),
                              ("pbn", PBN.format(count="x", more=""), "no number"),
                              ("pbn", '<!DOCTYPE a [<!ENTITY b "b">]><puzzleset/>', "entities of its own")):
        found, told = taken(bench, kind, text, 2)
        assert not found and len(told) == 1 and fault in told[0], f"{kind} {text[:60]!r}: {found} {told}"
    texts = [bench.generate("pattern", size, seed)[0] for size in ("5x5", "10x7", "1x9") for seed in (1, 2, 3)]
    non = bench.good([CONVERT, "to", "non", "pattern", "-"], "".join(f"{text}\n" for text in texts))
    assert taken(bench, "non", non)[0] == texts, non[:300]


def test_as_json(bench):
    """IDs of each game as lines of JSON have the ID and each of its numbers; a refused line is told"""
    for game, size in (("solo", "2x3"), ("pattern", "5x5"), ("lightup", "7x7"), ("tents", "8x8")):
        text = bench.generate(game, size, 1)[0]
        one = json.loads(bench.good([CONVERT, "to", "json", game, "-"], f"{text}\n"))
        numbers = [cell for row in one["cells"] for cell in row if cell.isdigit()]
        numbers += [str(number) for clue in one["columns"] + one["rows"] for number in clue]
        wanted = re.findall("[0-4]" if game == "lightup" else "[0-9]+", text.partition(":")[2])
        assert one["id"] == text and numbers == wanted, f"{text}: {one}"
        assert [len(row) for row in one["cells"]] == [one["width"]] * one["height"], f"{one}"
    bench.told([CONVERT, "to", "json", "solo", "-"], 2, "-:2: no colon", given=f"{SOLO}\nnone\n")
    bench.told([CONVERT, "to", "non", "solo", "-"], 2, "of pattern alone")
    bench.told([CONVERT, "from", "non", bench.folder / "nowhere"], 6, "nowhere")
    with open("/dev/full", "w") as full:
        bench.told([CONVERT, "to", "json", "solo", "-"], 6, "No space left", given=f"{SOLO}\n", stdout=full)

