"""IDs are read, refused, written and drawn as the program and docs/FORMATS.md have it."""
import random
import re
import xml.etree.ElementTree


from support.bench import LETTERS

SIZES = {"solo": ("2x2", "2x3", "3x3", "2x2x", "3x4"), "pattern": ("1x1", "5x5", "10x7", "3x12"),
         "lightup": ("2x2", "7x7", "12x5", "20x9"), "tents": ("4x4", "8x8", "5x13", "12x12")}
EDITS = 6000
# The texts of docs/FORMATS.md: game, ID, and what is wrong with it, or how it is written.
TOLD = [
    ("solo", "2:p", "2x2:p"), ("solo", "2x2:__p_", "2x2:p"), ("solo", "2x2:hh", "2x2:p"), ("solo", "", "no colon"),
    ("solo", "2x2:5o", "number range at 4"), ("solo", "2x2:0o", "bad byte at 4"), ("solo", "2x2:o", "too few"),
    ("solo", "2x2:q", "too many"), ("solo", "3x3#12", "seed id"), ("solo", "9x:p", "bad size"), ("solo", "2xx2:p", "bad size"),
    ("solo", "02x2:p", "bad size"), ("solo", "2x2xx:p", "variant"), ("solo", "9j:p", "variant"), ("solo", "6x6:p", "size range"),
    ("solo", "9" * 16000 + "x2:p", "size range"), ("solo", "2x2:" + "_" * 65531 + "p", "2x2:p"),
    ("solo", "2x2:" + "_" * 65532 + "p", "too long"), ("pattern", "1x1:" + "0" * 16000 + "1/1", "1x1:1/1"),
    ("pattern", "2x2:1/1/1", "too few"), ("pattern", "2x2:1./1/1/1", "bad byte at 5"), ("pattern", "2x2:1/1/1/1/", "too many"),
    ("pattern", "1x1:0/", "number range at 4"), ("pattern", "2x2:1/1/1/1,#", "bad byte at 11"),
    ("pattern", "3x1:1/1/1/2.1", "line 3 too full"), ("pattern", "1x1:" + "9" * 16000 + "/1", "line 0 too full"),
    ("pattern", "2x2x:///", "variant"), ("pattern", "121x1:", "size range"), ("pattern", "2x1:1/1/1.1/", "line 2 too full"),
    ("lightup", "2x2:aac", "too many"), ("lightup", "2x2:aab", "2x2:d"), ("lightup", "3x3:aBBa1aBb", "3x3:aBBa1aBb"),
    ("tents", "5x5:z_,0,0,0,0,0,0,0,0,0,0", "5x5:y,0,0,0,0,0,0,0,0,0,0"), ("tents", "4x6:z,0,0,0,0,0,0,0,0,0,0", "too many"),
    ("tents", "2x2:_c,00,1,01,0", "2x2:_c,0,1,1,0"), ("tents", "2x2:_c,3,1,1,0", "number range at 7"),
    ("tents", "13x2:za" + 15 * ",0", "13x2:za" + 15 * ",0")]


def made(bench):
    """IDs that the program made, some for each size, by game."""
    return {game: [bench.generate(game, size, seed)[0] for size in sizes for seed in range(1, 7)]
            for game, sizes in SIZES.items()}


def edited(draws, text):
    """An ID with some bytes dropped, doubled, put in or changed."""
    text = bytearray(text.encode())
    for _ in range(draws.randint(1, 3)):
        at = draws.randrange(len(text) + 1)
        sign = draws.choice(LETTERS).encode() if draws.random() < .8 else bytes([draws.randrange(256)])
        change = draws.randrange(5)
        text[at:at + (change in (0, 1))] = b"" if change == 0 else sign * draws.choice((1, 1, 1, 30)) if change == 4 else sign
        if draws.random() < .1:
            del text[draws.randrange(len(text) + 1):]
    return bytes(text).replace(b"\n", b"").rstrip(b"\r")


def respelled(draws, game, text):
    """An ID of the same puzzle, with runs of blanks cut in two, a `_` put in, or zeros before numbers."""
    head, colon, description = text.partition(":")
    if game in ("solo", "lightup"):
        description = re.sub("[b-z]", lambda letter: cut(draws, letter[0]) if draws.random() < .3 else letter[0], description)
    if game == "solo":
        ends = [0, *(at for at in range(len(description)) if not description[at - 1:at + 1].isdigit())]
        at = draws.choice(ends)
        description = f"{description[:at]}_{description[at:]}"
    if game in ("pattern", "tents"):
        description = re.sub("(?<![0-9])[0-9]", lambda digit: "0" * draws.choice((0, 0, 1, 9)) + digit[0], description)
    return f"{head}{colon}{description}".encode()


def cut(draws, letter):
    first = draws.randint(1, ord(letter) - 97)
    return chr(96 + first) + chr(ord(letter) - first)


def test_documented(bench):
    """IDs of docs/FORMATS.md are written, or refused, as it says"""
    for game in SIZES:
        cases = [(text, wanted) for name, text, wanted in TOLD if name == game]
        forms = bench.written(game, [text.encode() for text, _ in cases])
        for (text, wanted), form in zip(cases, forms, strict=True):
            assert form.removeprefix("refused: ") == wanted, f"{game} {text[:40]}: {form}, wanted {wanted}"


def test_beside_the_program(bench):
    """made and hostile IDs: the fault is the program's, and the written ID has the same answer as the one that was read"""
    draws = random.Random(1)
    for game, texts in made(bench).items():
        assert bench.written(game, [text.encode() for text in texts]) == texts, f"{game}: a made ID is written otherwise"
        lines = [respelled(draws, game, draws.choice(texts)) for _ in range(EDITS // 4)]
        lines += [edited(draws, draws.choice(texts)) for _ in range(EDITS)]
        forms, answers = bench.written(game, lines), bench.answers(game, lines)
        counts = [len(lines), len(forms), len(answers)]
        assert len({*counts}) == 1, f"{game}: {counts} lines, forms and answers"
        for line, form, (answer, *_) in zip(lines, forms, answers):
            is_refused = form.startswith("refused") or answer.startswith("refused")
            assert not is_refused or form == answer, f"{game} {line}: {form}, {answer}"
        good = [number for number, form in enumerate(forms) if not form.startswith("refused")]
        assert EDITS // 4 < len(good) < EDITS, f"{game}: {len(good)} of {len(lines)} IDs are good"
        assert good[:EDITS // 4] == list(range(EDITS // 4)), f"{game}: a respelled ID is refused"
        again = bench.answers(game, [forms[number].encode() for number in good])
        assert again == [answers[number] for number in good], f"{game}: a written ID has another answer"
        assert bench.written(game, [forms[number].encode() for number in good]) == [forms[number] for number in good], (
            f"{game}: a written ID is written otherwise")


def test_drawn(bench):
    """puzzles and solutions are drawn: as many numbers, black cells and bulbs as there are, and well-formed"""
    for game, sizes in SIZES.items():
        for size in sizes:
            text, *rows = bench.generate(game, size, 3)
            for words, grid in ((["--svg"], None), (["--grid"], rows)):
                done = bench.run(["puzzles-ids", *words, game, text], "".join(f"{row}\n" for row in rows) if grid else "")
                assert done.returncode == 0 and not done.stderr, f"{words} {game} {text}: {done.stderr}"
                root = xml.etree.ElementTree.fromstring(done.stdout)
                numbers = [element.text for element in root.iter() if element.tag.endswith("text")]
                assert sorted(numbers) == sorted(wanted_numbers(game, text, grid)), f"{words} {game} {text}: numbers {numbers}"
                bulbs = sum(element.tag.endswith("circle") for element in root.iter())
                assert bulbs == "".join(grid or []).count("O"), f"{words} {game} {text}: {bulbs} bulbs"
                black = sum(element.get("d", "").count("h1v1h-1z") for element in root.iter() if element.get("fill") == "#000")
                if grid and game in ("pattern", "lightup"):
                    wanted = sum(sign in "#01234" for row in grid for sign in row)
                    assert black == wanted, f"{words} {game} {text}: {black} black cells, wanted {wanted}"


def wanted_numbers(game, text, grid):
    """The numbers that stand in a drawing, by a look at the ID alone, or at the grid."""
    description = text.partition(":")[2]
    if grid:
        return [sign for row in grid for sign in (row.split() if game == "solo" else row) if sign.isdigit()]
    return re.findall("[0-4]" if game == "lightup" else "[0-9]+", description)


def test_refusals(bench):
    """a refused ID, a grid that is none, and a full disk are told in one sentence, with a status"""
    script, solo = "puzzles-ids", "2x2:1b4i3_2a"
    cases = [(["solo", "2x2:5o"], "", "refused: number range at 4"), (["tents", "\udcff"], "", "refused: no colon"),
             (["--svg", "pattern", "9" * 5000], "", "refused: no colon"), (["chess", "1x1:/"], "", "invalid choice"),
             (["--grid", "solo", solo], "1 2\n", "no grid of this puzzle"), (["--grid", "solo", solo], "\0" * 99, "no grid"),
             (["--grid", "solo", solo], "2 2 3 4\n3 4 1 2\n2 1 4 3\n4 3 2 1\n", "2 can't stand at column 0, row 0"),
             (["--svg", "solo"], "", "needs an ID"), (["--cell", "nan", "--svg", "solo", solo], "", "a cell has")]
    for words, given, sentence in cases:
        bench.told([script, *words], 2, sentence, given)
    for words in (["solo", solo], ["--svg", "solo", solo]):
        with open("/dev/full", "w") as full:
            bench.told([script, *words], 6, "No space left", stdout=full)

