"""What helps a player on the board, in a browser: broken rules, marks to go back to, notes that go by themselves, colours,
several cells at once, numbers chosen first, dots, and numbers of clues."""
from page.boards import ROW, SOLO, WHITE
from page.drawn import drag
from page.driver import ActionChains, Keys


def try_comfort(page, server, tally):
    for part in (broken_rules, marks, tidy_notes, corner_notes, several_cells, number_first, dots, clue_numbers):
        part(page, server, tally)


def setting(page, name):
    """Turns a box of the settings over."""
    page.script("document.getElementById('settings').open = true")
    page.click(f"#is-{name}")


def broken_rules(page, _, tally):
    """What breaks a rule shows as one plays, in each game, in the cell's name too; and a box turns it off."""
    page.open("solo", SOLO)
    page.cells()[1].click()
    page.keys("1")
    tally.same("a number twice", page.having("broken"), [0, 1])
    tally.same("its name", page.signs()[1], "1, against the rules")
    setting(page, "broken")
    tally.same("not shown", page.having("broken"), [])
    setting(page, "broken")
    page.open("lightup", "3x2:1e")
    page.cells()[3].click()
    page.cells()[5].click()
    tally.same("bulbs that see each other", page.having("broken"), [3, 5])
    page.cells()[1].click()
    tally.same("a number with too many", 0 in page.having("broken"), True)
    page.open("tents", "3x3:aaaaa,2,0,2,2,0,2")
    places = [place for place, sign in enumerate(page.signs()) if sign == "blank"]
    for place in places[:5]:
        page.cells()[place].click()
    tally.true("tents that touch", page.having("broken"))
    tally.true("a line with too many", page.all("#stage .clue.broken"))
    page.open("pattern", ROW)
    for place in (0, 1, 2):
        page.cells()[place].click()
    names = [head.get_attribute("aria-label") for head in page.all("#stage .clue.broken")]
    tally.same("lines of Pattern with too much", names, ["column 3: none, against the rules", "row 1: 2 2, against the rules"])


def marks(page, _, tally):
    """A mark to go back to, also after a reload; Start over is a step that a reload doesn't lose."""
    page.open("pattern", WHITE)
    black = lambda: [place for place, sign in enumerate(page.signs()) if sign == "black"]
    page.cells()[0].click()
    tally.same("no way back yet", page.one("#back").is_enabled(), False)
    page.click("#mark")
    for place in (6, 12):
        page.cells()[place].click()
    page.driver.refresh()
    page.until("reloads a mark", page.is_ready)
    page.click("#back")
    seen = [black()]
    for _ in range(2):
        page.click("#redo")
    seen.append(black())
    page.click("#startOver")
    seen.append(black())
    page.driver.refresh()
    page.until("reloads an empty board", page.is_ready)
    page.click("#undo")
    seen.append(black())
    tally.same("back to the mark, and over again", seen, [[0], [0, 6, 12], [], [0, 6, 12]])
    page.cells()[6].click()
    page.click("#erase")
    tally.same("one cell erased", black(), [0, 12])


def tidy_notes(page, _, tally):
    """All notes at a press; a number takes its notes along, in one step; a digit in Notes doesn't delete a number."""
    page.open("solo", "2x2:p")
    page.click("#allNotes")
    tally.same("all notes", page.signs(), ["notes 1 2 3 4"] * 16)
    page.cells()[0].click()
    page.keys("2")
    gone = [place for place, sign in enumerate(page.signs()) if sign == "notes 1 3 4"]
    tally.same("notes that go", (page.signs()[0], gone), ("2", [1, 2, 3, 4, 5, 8, 12]))
    page.click("#notes")
    page.keys("3")
    tally.same("a note over a number", page.signs()[0], "2")
    page.click("#undo")
    tally.same("in one step", page.signs(), ["notes 1 2 3 4"] * 16)


def corner_notes(page, _, tally):
    """Notes in the corners stand beside those in the middle, and go as they do."""
    page.open("solo", "2x2:p")
    page.cells()[0].click()
    page.click("#corners")
    page.keys("134")
    page.click("#corners")
    page.keys("24", held=[Keys.SHIFT])
    both = "notes 2 4, in the corners 1 3 4"
    tally.same("notes of both kinds", page.signs()[0], both)
    stand = """const cell = document.querySelector('#stage .cell'), size = (part) => getComputedStyle(cell, part).fontSize;
        return [cell.dataset.top, cell.dataset.low, size('::before') === size('::after')];"""
    tally.same("where they stand", page.script(stand), ["1 3", "4", True])
    page.driver.refresh()
    page.until("reloads notes of both kinds", page.is_ready)
    tally.same("kept notes of both kinds", page.signs()[0], both)
    page.cells()[5].click()
    page.keys("3")
    tally.same("a note in the corners that goes", page.signs()[0], "notes 2 4, in the corners 1 4")
    page.click("#undo")
    page.cells()[0].click()
    page.keys("k3")
    tally.same("by the key", page.signs()[0], "notes 2 4, in the corners 1 4")
    page.keys("k4")
    tally.same("a number over both", page.signs()[0], "4")
    page.click("#undo")
    page.click("#erase")
    tally.same("both erased", page.signs()[0], "blank")


def several_cells(page, _, tally):
    """Several cells at once, by the mouse and by keys, for notes and colours."""
    page.open("solo", "2x2:p")
    drag(page, [0, 2])
    tally.same("chosen", page.having("chosen"), [0, 1, 2])
    page.click("#notes")
    page.keys("3")
    tally.same("a note in each", page.signs()[:4], ["notes 3"] * 3 + ["blank"])
    page.click("#colours")
    page.click("#pad [data-colour='4']")
    tally.same("a colour in each", page.signs()[:3], ["notes 3, colour 4"] * 3)
    page.cells()[8].click()
    page.keys(Keys.ARROW_DOWN, held=[Keys.SHIFT])
    tally.same("chosen by keys", page.having("chosen"), [8, 12])
    page.click("#undo")
    page.driver.refresh()
    page.until("reloads", page.is_ready)
    tally.same("a colour that was taken back", page.signs()[:3], ["notes 3"] * 3)
    page.click("#redo")
    tally.same("and comes again", page.signs()[:3], ["notes 3, colour 4"] * 3)


def number_first(page, _, tally):
    """A number that is held goes into each cell that is clicked."""
    page.open("solo", "2x2:p")
    ActionChains(page.driver).click_and_hold(page.all("#pad button")[2]).pause(0.8).release().perform()
    tally.same("the held number", page.all("#pad button")[2].get_attribute("aria-pressed"), "true")
    for place in (0, 6):
        page.cells()[place].click()
    tally.same("number first", [place for place, sign in enumerate(page.signs()) if sign == "3"], [0, 6])
    page.click("#pad button:nth-child(3)")
    page.cells()[9].click()
    tally.same("let go", page.signs()[9], "blank")


def dots(page, _, tally):
    """With its box a finished line is filled with dots, in one step."""
    setting(page, "dots")
    page.open("pattern", ROW, is_fresh=False)
    for place in (0, 1, 3, 4):
        page.cells()[place].click()
    tally.same("a finished line", page.signs()[:5], ["black", "black", "dot", "black", "black"])
    page.click("#undo")
    tally.same("one step", page.signs()[2:5], ["blank", "black", "blank"])
    setting(page, "dots")


def clue_numbers(page, _, tally):
    """One number of a clue is crossed off by a click, and kept."""
    page.open("pattern", ROW)
    page.click("#stage [data-key='row 1.1']")
    off = lambda: [found.get_attribute("data-key") for found in page.all("#stage .off")]
    seen = [off()]
    page.driver.refresh()
    page.until("reloads", page.is_ready)
    seen.append(off())
    page.click("#undo")
    tally.same("a number of a clue", [*seen, off()], [["row 1.1"], ["row 1.1"], []])
