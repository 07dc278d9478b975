"""Paper: the pictures of a board in the PDF are counted, as a player sees them. For test_browsers.py.

A picture is a spot: pixels of one colour that touch. `pdftoppm` of Debian's poppler-utils draws the sheets.
"""
import base64
import collections
import pathlib
import re
import shutil
import subprocess
import tempfile

WAIT = 60  # seconds of a drawing
DOTS = 80  # to the inch
COLOURS = {"T": (0x45, 0x89, 0x5A), "^": (0x6B, 0x4A, 0x10), "O": (0x7A, 0x5F, 0x00), "•": (0x1C, 0x5F, 0xA8)}
NEAR, LEAST = 24, 12  # how far a colour may be off in all, and pixels of a spot
MM = 25.4
BOARDS = [("tents", "10x10"), ("lightup", "10x10"), ("pattern", "10x10"), ("solo", "3x3")]
LARGE = [("pattern", "120x120:" + "/" * 239), ("pattern", "60x60:" + "/" * 119), ("tents", "50x60:" + "z" * 120 + ",0" * 110),
         ("lightup", "100x30:" + "z" * 115 + "j"), ("solo", "5x5:" + "z" * 24 + "a")]
TURNED = ("lightup", "43x20:" + "z" * 33 + "b")
FILL = """
    const [signs, done] = arguments;
    import(`${location.origin}/acts.js`).then(({ change }) => { change(signs.map((sign, k) => [k, sign])); done(); });
"""


def try_paper(page, server, tally):
    if not shutil.which("pdftoppm"):
        tally.true("pdftoppm of poppler-utils is there", False)
        return
    for game, size in BOARDS:
        made = server.made(game, size, "4", **({"black": "25"} if game == "lightup" else {}))
        counted(page, tally, game, made)
    for game, text in LARGE:
        sheets(page, tally, game, text)
    turned(page, tally)


def printed(page):
    """The PDF of what is open."""
    made = page.driver.execute_cdp_cmd("Page.printToPDF", {"paperWidth": 8.27, "paperHeight": 11.69})
    return base64.b64decode(made["data"])


def drawn(pdf, dots=DOTS):
    """Each sheet of a PDF: its width, and the colour of each pixel in rows."""
    with tempfile.TemporaryDirectory() as folder:
        path = pathlib.Path(folder) / "a.pdf"
        path.write_bytes(pdf)
        subprocess.run(["pdftoppm", "-r", str(dots), path, path.with_suffix("")], check=True, timeout=WAIT)
        return [pixels(found.read_bytes()) for found in sorted(path.parent.glob("*.ppm"))]


def pixels(ppm):
    _, wide, _, _, body = re.match(rb"(P6)\s+(\d+)\s+(\d+)\s+(\d+)\s(.*)", ppm, re.DOTALL).groups()
    return int(wide), list(zip(body[0::3], body[1::3], body[2::3]))


def spots(sheet, colour):
    """How many spots a colour has."""
    wide, colours = sheet
    open_ = {at for at, found in enumerate(colours) if sum(abs(a - b) for a, b in zip(found, colour)) <= NEAR}
    count = 0
    while open_:
        fresh, size = collections.deque([open_.pop()]), 0
        while fresh:
            at, size = fresh.popleft(), size + 1
            for near in (at - wide - 1, at - wide, at - wide + 1, at - 1, at + 1, at + wide - 1, at + wide, at + wide + 1):
                if near in open_:
                    open_.remove(near)
                    fresh.append(near)
        count += size >= LEAST
    return count


def counted(page, tally, game, made):
    """Empty, a board has its trees alone; filled in, also the tents, bulbs and dots that its cells have."""
    page.open(game, made["id"])
    signs = [sign for row in made["grids"][0] for sign in (row.split() if game == "solo" else row)]
    filled = ["•" if sign == "." else sign for sign in signs]
    filled[signs.index(next(sign for sign in signs if sign in "#O^123456789"))] = "."  # so that it isn't the end
    page.driver.execute_async_script(FILL, filled)
    now = [sign.split(",")[0] for sign in page.signs()]
    stands = {sign: now.count(name) for sign, name in {"T": "tree", "^": "tent", "O": "bulb", "•": "dot"}.items()}
    for is_filled in (False, True):
        page.script("document.body.classList.toggle('filled', arguments[0])", is_filled)
        sheets_ = drawn(printed(page))
        seen = {sign: sum(spots(sheet, colour) for sheet in sheets_) for sign, colour in COLOURS.items()}
        wanted = {sign: count if is_filled or sign == "T" else 0 for sign, count in stands.items()}
        if game == "solo":
            seen["•"] = 0  # its numbers have the colour of dots
        tally.same(f"pictures of {game} on paper, filled {is_filled}", (seen, len(sheets_)), (wanted, 1))
    page.script("document.body.classList.remove('filled')")


def on_paper(page):
    """The cells of what is printed: each one's sides in millimetres, on how many boards."""
    return page.script("""
        dispatchEvent(new Event('beforeprint'));
        const boards = [...document.querySelectorAll('#stage .board, #sheets .board')], box = (one) => one.getBoundingClientRect();
        return boards.filter((one) => one.getClientRects().length).map((board) => {
          const cells = [...board.querySelectorAll('.cell')].map(box);
          const all = board.getBoundingClientRect(), mm = 25.4 / 96;
          const least = Math.min(...cells.flatMap((cell) => [cell.width, cell.height]));
          return [cells.length, least * mm, all.width * mm, all.height * mm];
        });""")


def in_print(page, act):
    page.driver.execute_cdp_cmd("Emulation.setEmulatedMedia", {"media": "print"})
    try:
        return act()
    finally:
        page.driver.execute_cdp_cmd("Emulation.setEmulatedMedia", {"media": ""})


def sheets(page, tally, game, text):
    """A board that is too large goes over sheets: each cell is on one of them, and has 5 mm."""
    page.open(game, text)
    boards = in_print(page, lambda: on_paper(page))
    tally.same(f"cells of {game} {text[:8]} on sheets", sum(board[0] for board in boards), len(page.cells()))
    tally.true(f"the least cell of {game} {text[:8]}: {boards[0]}", all(board[1] >= 4.99 for board in boards))
    tally.true(f"each sheet of {game} {text[:8]}: {boards}", all(board[2] <= 178 and board[3] <= 230 for board in boards))
    count = len(re.findall(rb"/Type\s*/Page\b", printed(page)))
    tally.same(f"sheets of {game} {text[:8]}", count, len(boards))


def turned(page, tally):
    """A board that fits when it is turned has one sheet."""
    page.open(*TURNED)
    boards = in_print(page, lambda: on_paper(page))
    tally.true(f"a turned board: {boards}", len(boards) == 1 and boards[0][1] >= 5 and boards[0][3] > boards[0][2])
    tally.same("its sheets", len(re.findall(rb"/Type\s*/Page\b", printed(page))), 1)
