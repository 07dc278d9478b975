"""What the page tells a player in a browser: mistakes, levels, hints."""
import time

from page.boards import ROW, SOLO, TENTS
from page.driver import ActionChains, Keys

PRESSES, MAKING = 5, 60  # presses of New puzzle, for one of a level, and seconds for each
STILL = "No puzzle of this difficulty yet."  # which the page says while it goes on
HARDER = [  # game, ID, and what its first hint says: no single clue leads on
    ("lightup", "3x3:aBBa1aBb", "with no bulb there, the 1 at row 2, column 2 has too many bulbs"),
    ("tents", "5x5:g_dh_a,0,1,1,1,2,1,1,1,1,1", "Column 5 (2): its tents can be put in 2 ways")]


def try_helped(page, server, tally):
    for part in (mistakes, late_answers, made_levels, hints):
        part(page, server, tally)


def mistakes(page, _, tally):
    """Which cells are wrong, however little is filled in; a dot is wrong too, and notes that lack the number."""
    page.open("solo", SOLO)
    page.cells()[1].click()
    page.keys("4", Keys.ARROW_RIGHT, "3", Keys.ARROW_DOWN)
    page.keys("2", held=[Keys.SHIFT])
    tally.true("a wrong number", page.answer("#check").startswith("One cell is wrong."))
    tally.same("a wrong number, and notes", (page.having("wrong"), page.having("wrongNote")), ([1], [6]))
    page.click("#undo")
    page.click("#undo")
    page.cells()[1].click()
    page.keys("2")
    tally.true("no wrong number", page.answer("#check").startswith("No mistake so far."))
    page.open("pattern", ROW)
    page.cells()[2].click()
    for _ in range(2):
        page.cells()[0].click()
    tally.true("wrong in Pattern", page.answer("#check").startswith("2 cells are wrong."))
    tally.same("wrong in Pattern: the cells", page.marked(), [0, 2])
    page.open("solo", "2x2:p")
    wanted = "This puzzle has several solutions. So no cell alone is right or wrong. Fill all cells first."
    tally.same("of several", page.answer("#check"), wanted)


def late_answers(page, _, tally):
    """An answer about a board that has changed is not told."""
    held = ("window.real ||= window.fetch;"
            "window.fetch = (...words) => new Promise((done) => { window.release = () => done(window.real(...words)) })")
    for button in ("#check", "#hint"):
        page.open("pattern", ROW)
        page.script(held)
        page.cells()[2].click()
        page.click(button)
        page.until("asks", lambda: page.script("return document.body.ariaBusy === 'true' && Boolean(window.release)"))
        page.cells()[0].click()
        page.script("window.release()")
        page.until("has its answer", lambda: page.script("return document.body.ariaBusy") == "false")
        tally.same(f"late answer to {button}", (page.text("#answer"), page.marked()), ("", []))
    page.script("window.fetch = window.real")
    page.click("#check")
    page.click("#check")
    page.until_said("wrong")
    tally.same("two clicks", page.text("#answer").count("wrong"), 1)


def made_levels(page, _, tally):
    """What was promised stands with the puzzle, after a reload too; and what isn't made can't be chosen."""
    for game in ("solo", "pattern", "lightup", "tents"):
        page.open()
        page.choose(game)
        page.until(f"shows {game}", lambda: page.all(f"#stage .{game}") and page.is_ready())
        for level, said in (("easy", "Easy"), ("medium", "Medium"), ("hard", "Hard")):
            before = page.one("#id").get_property("value")
            page.select("#difficulty", level)
            tally.true(f"what {level} of {game} needs", page.text("#wanted"))
            tally.true(f"makes {level} {game}", press_until_made(page, before))
            promise = page.text("#level")
            tally.true(f"{level} of {game}: {promise}", promise.startswith(said))
            page.driver.refresh()
            page.until(f"reloads {level} {game}", page.is_ready)
            tally.same(f"{level} of {game} after a reload", page.text("#level"), promise)
            tally.same(f"{level} of {game}: its grade", page.answer("#grade"), promise)
    page.choose("tents")
    page.until("shows tents", lambda: page.all("#stage .tents") and page.is_ready())
    page.select("#size", "20x20")
    closed = [option.get_property("value") for option in page.all("#difficulty option") if not option.is_enabled()]
    tally.true(f"levels of Tents 20x20 that can't be chosen: {closed}", closed)


def press_until_made(page, before):
    """Whether a puzzle comes. On a busy machine the page says first that it is still being made, or that none came in time."""
    made = lambda: page.one("#id").get_property("value") != before
    is_making = lambda said: not said or said.startswith(STILL)
    for _ in range(PRESSES):
        page.script("document.getElementById('answer').textContent = ''")
        page.click("#generate")
        end = time.monotonic() + MAKING
        while not made() and is_making(page.text("#answer")) and time.monotonic() < end:
            time.sleep(0.1)
        if made():
            return True
    return False


def hints(page, server, tally):
    """Each game is played by its hints to the end; each shows first where to look, and then the cells with their signs."""
    for game, size in (("solo", "2x3"), ("pattern", "5x5"), ("lightup", "5x5"), ("tents", "5x5")):
        made = server.made(game, size, "3", budget="0")
        page.open(game, made["id"])
        signs = [sign for row in made["grids"][0] for sign in (row.split() if game == "solo" else row)]
        for _ in range(2 * len(signs)):
            first, said = page.hint()
            if said.startswith("Correct"):
                break
            marked, house, shown = page.marked(), page.having("house"), page.shown()
            tally.true(f"hint in {game}: {first}", first.startswith("Look") and first != said)
            tally.true(f"hint in {game}: {said}", "Proved by the program" in said and "The page’s own: the reason." in said)
            tally.true(f"hint in {game}: the cells", marked and house)
            tally.same(f"hint in {game}: the signs", shown, {str(k): signs[k] if signs[k] != "." else "•" for k in marked})
            for place in marked:
                fill(page, game, place, signs[place])
        page.until_said("Correct. The puzzle is solved.")
    page.open("tents", TENTS)
    page.cells()[2].click()
    tally.true("hint at a wrong cell", page.answer("#hint").startswith("Row 2, column 1 is wrong."))
    tally.same("hint at a wrong cell: the cell", page.marked(), [2])
    tally.same("its colour", page.script("return document.querySelector('.board').classList.contains('hinted')"), False)
    page.open("lightup", "2x2:Bc")
    tally.true("no hint", page.answer("#hint").endswith("So there is no hint."))
    for game, text, words in HARDER:
        page.open(game, text)
        said = page.hint()
        tally.true(f"a harder step in {game}: {said}", words in said[1])


def fill(page, game, place, sign):
    cell = page.cells()[place]
    if game == "solo":
        cell.click()
        page.keys(sign)
    elif sign in "#O^":
        cell.click()
    else:
        ActionChains(page.driver).context_click(cell).perform()
