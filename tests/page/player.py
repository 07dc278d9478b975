"""What a player does on the board in a browser: steps, notes, numbers, keys, and clues that are met."""
import time

from page.boards import ROW, SOLO, TENTS, WHITE
from page.driver import Keys


def try_player(page, server, tally):
    for part in (steps, notes, long_numbers, crossed_off, focus):
        part(page, server, tally)


def steps(page, _, tally):
    """Undo and redo by buttons and keys, with Caps Lock too; Start over is a step."""
    page.open("pattern", WHITE)
    cells = page.cells()
    for place in (0, 6, 12):
        cells[place].click()
    black = lambda: [place for place, sign in enumerate(page.signs()) if sign == "black"]
    seen = [black()]
    control, both = [Keys.CONTROL], [Keys.CONTROL, Keys.SHIFT]
    for act in (lambda: page.click("#undo"), lambda: page.keys("z", held=control), lambda: page.click("#redo"),
                lambda: page.keys("z", held=both), lambda: page.click("#startOver"), lambda: page.keys("z", held=control),
                lambda: page.keys("y", held=control), lambda: caps_lock(page)):
        act()
        seen.append(black())
    tally.same("steps", seen, [[0, 6, 12], [0, 6], [0], [0, 6], [0, 6, 12], [], [0, 6, 12], [], [0, 6, 12]])
    page.keys("y", held=control)
    enabled = [page.one(name).is_enabled() for name in ("#undo", "#redo", "#startOver")]
    tally.same("the ends of the steps", enabled, [True, False, False])


def caps_lock(page):
    """Ctrl+Z under Caps Lock. The driver would hold Shift for a large letter."""
    for kind in ("rawKeyDown", "keyUp"):
        page.driver.execute_cdp_cmd("Input.dispatchKeyEvent", {"type": kind, "modifiers": 2, "key": "Z", "code": "KeyZ",
                                                               "windowsVirtualKeyCode": 90})


def notes(page, _, tally):
    """Notes by the button and by Shift; the same numbers lit; the numbers left."""
    page.open("solo", SOLO)
    page.cells()[1].click()
    page.keys("23", held=[Keys.SHIFT])
    tally.same("notes by Shift", page.signs()[1], "notes 2 3")
    page.click("#notes")
    page.click("#pad button:nth-child(2)")
    page.keys("4")
    tally.same("notes by the button", page.signs()[1], "notes 3 4")
    page.click("#notes")
    tally.same("numbers left", [button.get_attribute("aria-label") for button in page.all("#pad button")],
               ["1, 3 left", "2, 3 left", "3, 3 left", "4, 3 left"])
    page.keys("2")
    tally.same("a number over notes", (page.signs()[1], page.all("#pad button")[1].text.split()), ("2", ["2", "2"]))
    tally.same("the same numbers", page.having("same"), [1, 14])
    page.click("#undo")
    page.driver.refresh()
    page.until("reloads notes", page.is_ready)
    tally.same("kept notes", page.signs()[1], "notes 3 4")


def long_numbers(page, _, tally):
    """Two digits soon after one another are one number; a later digit begins anew; a letter is a number over 9."""
    page.open("solo", "4x4:" + "z" * 9 + "v")
    page.cells()[5].click()
    page.keys("12")
    seen = [page.signs()[5]]
    time.sleep(1.2)
    page.keys("3")
    seen.append(page.signs()[5])
    page.keys(Keys.ARROW_RIGHT, "g")
    seen.append(page.signs()[6])
    page.keys(Keys.ARROW_LEFT, Keys.DELETE)
    page.keys("14", held=[Keys.SHIFT])
    tally.same("numbers of two digits", [*seen, page.signs()[5]], ["12", "3", "16", "notes 14"])


def crossed_off(page, _, tally):
    """Clues that are met, of lines and of cells; one that still says something isn't."""
    page.open("pattern", ROW)
    cells = page.cells()
    heads = lambda: [head.get_attribute("aria-label") for head in page.all("#stage .clue.met")]
    tally.same("an empty board of Pattern", heads(), [])
    for place in (0, 1, 3):
        cells[place].click()
    met = ["column 1: 1, met", "column 2: 1, met", "column 4: 1, met"]
    tally.same("clues of Pattern", heads(), met)
    cells[4].click()
    tally.same("all clues of Pattern", heads(), [*met, "column 5: 1, met", "row 1: 2 2, met"])
    page.open("tents", TENTS)
    tally.same("an empty board of Tents", heads(), [])
    page.cells()[1].click()
    page.cells()[2].click()
    page.cells()[2].click()
    tally.same("clues of Tents", sorted(heads()), ["column 1: 0, met", "column 2: 1, met", "row 1: 1, met"])
    page.open("lightup", "2x2:2c")
    page.cells()[1].click()
    tally.same("a clue of Light Up", page.signs()[0], "black 2")
    page.cells()[2].click()
    tally.same("a clue of Light Up that is met", page.signs()[0], "black 2, met")
    page.open("lightup", "2x2:0c")
    tally.same("a 0 of Light Up", page.signs()[0], "black 0")


def focus(page, _, tally):
    """Keys reach the board as soon as it is there, and after a button."""
    page.open("solo", SOLO)
    page.keys("2")
    tally.same("a key at once", page.signs()[1], "2")
    page.cells()[2].click()
    page.click("#pad button:nth-child(1)")
    page.keys("3", Keys.ARROW_DOWN, "1")
    tally.same("keys after a button", (page.signs()[2], page.signs()[6]), ("3", "1"))
    page.keys(Keys.END, "2", Keys.HOME, "3")
    tally.same("the ends of a row", (page.signs()[4], page.signs()[7]), ("3", "2"))
    page.one("#seed").send_keys("12")
    tally.same("keys in a field", page.signs()[4], "3")
