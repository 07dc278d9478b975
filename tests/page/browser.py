"""Each game as a person plays it in a browser, and texts of any kind in any field."""
import contextlib
import tempfile

from page import comfort, drawn, expected, fingers, helped, hinting, kept, looks, paper, player, speed, visits
from page.driver import By, Keys, Page, WebDriverException

DESK = (1280, 800)
GAMES = [  # game, size, seed, black cells as the page asks for
    ("solo", "3x3", "7", None), ("pattern", "10x10", "3", None), ("lightup", "7x7", "5", "20"), ("tents", "8x8", "2", None)]
GRADES = {"singles": ["Easy"], "houses": ["Medium"], "crossings": ["Medium"], "lines": ["Easy"], "local": ["Easy"]}
HARD = "10x10:1/1/1/1/1/1/1/1/1//1/1/1/1/1/1/1/1/1/1"  # 725,758 trials
SIGNS = {"pattern": "#", "lightup": "O", "tents": "^"}
BROKEN = [  # game, ID, the text that is marked
    ("solo", "3x3:a8_4a!7d", "!"), ("pattern", "2x2:1/é/1/1", "é"), ("solo", "2x2:1_5n", "5"),
    ("pattern", "3x1:1/1/1/2.1", "2.1"), ("tents", "2x2:_c,0,1,1,9", "9")]
HOSTILE = ["--budget=5", "--", "<img src=x onerror=document.title='hurt'>", "';\"\\%s{}", "\u202e𝟙𝟚x3:", "z" * 200_000,
           "3x3#1", " ", "2x2:\r\n\0"]


def try_page(server, tally):
    """The page over its server, in Chromium."""
    parts = [try_games, kept.try_kept, player.try_player, drawn.try_drawn, helped.try_helped, comfort.try_comfort,
             visits.try_visits, looks.try_looks, fingers.try_fingers, hinting.try_hinting, expected.try_expected,
             paper.try_paper, speed.try_speed]
    with opened(server.url, tally) as page:
        for part in parts:
            part(page, server, tally)


@contextlib.contextmanager
def opened(url, tally):
    """A page in Chromium. What the browser complains of is a fault, and so is its end."""
    with tempfile.TemporaryDirectory(ignore_cleanup_errors=True) as profile:
        page = Page(url, profile)
        try:
            page.size(*DESK)
            try:
                yield page
                said = [line["message"] for line in page.driver.get_log("browser")]
                tally.same(f"what the browser complains of at {url}", [line for line in said if "Failed to load" not in line], [])
            except WebDriverException as fault:
                tally.same(f"the browser at {url}", f"{type(fault).__name__}: {fault.msg}", "no fault")
        finally:
            page.driver.quit()


def try_games(page, server, tally):
    """Each game as a person plays it; broken IDs; texts of any kind in any field."""
    for game, size, seed, black in GAMES:
        play(page, server, tally, game, size, seed, black)
    several(page, tally)
    for game, text, mark in BROKEN:
        broken(page, tally, game, text, mark)
    hostile(page, tally)


def made(server, game, size, seed, black):
    """The puzzle of a seed, as the server makes it."""
    return server.made(game, size, seed, **({"black": black} if black else {}))


def signs_of(game, grid):
    """The sign of each cell of a printed grid."""
    return [sign for row in grid for sign in (row.split() if game == "solo" else row)]


def play(page, server, tally, game, size, seed, black):
    """Makes a puzzle by its seed, fills in its solution, then breaks it; and has it solved and graded."""
    puzzle = made(server, game, size, seed, black)
    page.open()
    page.choose(game)
    page.until(f"shows {game}", lambda: page.all(f"#stage .{game}") and page.is_ready())
    chosen = [page.one(box).get_property("value") for box in ("#size", "#difficulty")]
    tally.same(f"{game}: size and difficulty", chosen, [size, "easy"])
    tally.true(f"{game}: what easy needs", page.text("#wanted").startswith("Each step"))
    make(page, game, size, seed, "", puzzle["id"])
    signs = signs_of(game, puzzle["grids"][0])
    asked = write(page, game, signs, len(puzzle["grids"][0]))
    page.until_said("Correct. The puzzle is solved.")  # without being asked
    tally.same(f"{game}: check of the solution", page.answer("#check"), "Correct. The puzzle is solved.")
    spoil(page, game, signs, asked)
    tally.same(f"{game}: check of a wrong cell", page.answer("#check").startswith("One cell is wrong."), True)
    tally.same(f"{game}: the mark", page.marked(), [asked[0]])
    page.click("#startOver")
    tally.same(f"{game}: solve", page.solution(), "The only solution is below.")
    solution = "".join(row + "\n" for row in puzzle["grids"][0])
    tally.same(f"{game}: what solve shows", printed(page, game, puzzle["grids"][0], "#solutions"), solution)
    tally.same(f"{game}: what solve leaves", printed(page, game, puzzle["grids"][0]) == solution, False)
    _, _, told = server.ask("grade", {"game": game, "id": puzzle["id"]})
    wanted = GRADES.get(told["grade"], ["Medium", "Hard"])
    tally.true(f"{game}: grade", page.answer("#grade").partition(":")[0].partition(",")[0] in wanted)


def make(page, game, size, seed, level, text):
    """Has the page make the puzzle of a seed."""
    page.open()
    page.choose(game)
    page.until(f"shows {game}", lambda: page.all(f"#stage .{game}") and page.is_ready())
    page.put("#seed", seed)
    page.select("#size", size)
    page.select("#difficulty", level)
    page.click("#generate")
    page.until(f"makes {game} {size} of {seed}", lambda: page.one("#id").get_property("value") == text)


def write(page, game, signs, rows):
    """Fills in a solution, or a part of it: Solo by clicks and digits, Tents by keys alone, the others by clicks.
    Gives the filled cells."""
    cells, wide = page.cells(), len(signs) // rows
    places = [place for place, sign in enumerate(signs)
              if (game == "solo" and sign != "." and not cells[place].text) or sign == SIGNS.get(game)]
    if game == "tents":
        at = next(place for place, cell in enumerate(cells) if cell.get_attribute("tabindex") == "0")
        keys = []
        for place in places:
            down, right = place // wide - at // wide, place % wide - at % wide
            keys += [Keys.ARROW_DOWN if down > 0 else Keys.ARROW_UP] * abs(down)
            keys += [Keys.ARROW_RIGHT if right > 0 else Keys.ARROW_LEFT] * abs(right) + [Keys.SPACE]
            at = place
        cells[next(place for place, cell in enumerate(cells) if cell.get_attribute("tabindex") == "0")].send_keys(*keys)
        return places
    for place in places:
        cells[place].click()
        if game == "solo":
            cells[place].send_keys(signs[place])
    return places


def spoil(page, game, signs, places):
    """Makes one cell wrong: another number by the buttons, or a dot."""
    page.cells()[places[0]].click()
    if game == "solo":
        page.click(f"#pad button:nth-child({int(signs[places[0]]) % 9 + 1})")
        page.until_said("Each cell is filled, but something is wrong.")  # without being asked
    else:
        page.cells()[places[0]].send_keys(Keys.DELETE, "x")


def printed(page, game, grid, within="#stage"):
    """A board as a grid is printed, from what a screen reader reads of each cell."""
    said = [sign.split(",")[0] for sign in page.signs(within)]
    if game == "solo":
        wide = len(grid)
        return "".join(" ".join(said[k:k + wide]) + "\n" for k in range(0, len(said), wide))
    signs = {"blank": ".", "dot": ".", "black": "#", "bulb": "O", "tent": "^", "tree": "T"}
    text = "".join(signs.get(word.strip(), word.removeprefix("black ")) for word in said)
    return "".join(text[k:k + len(grid[0])] + "\n" for k in range(0, len(text), len(grid[0])))


def several(page, tally):
    """Both grids of several, with the cells where they differ."""
    page.open("lightup", "2x2:Bc")
    said = page.solution()
    tally.same("several", said, "This puzzle has several solutions. Two are below. They differ in the 3 marked cells.")
    marks = [len(figure.find_elements(By.CSS_SELECTOR, ".marked")) for figure in page.all("#solutions figure")]
    tally.same("several: the grids and their marks", marks, [3, 3])
    page.cells()[1].click()
    tally.same("a check of several", page.answer("#check"), "Not yet: a cell is dark, at row 2, column 1.")
    tally.same("a check of several: the mark", page.marked(), [2])
    page.cells()[2].click()
    page.until_said("Correct. The puzzle is solved.")
    page.open("pattern", "2x1:1/1/1")
    tally.same("none", page.solution(), "This puzzle has no solution.")
    page.open("pattern", HARD)
    tally.same("a long search", page.solution(), "Too hard to tell within the page’s limit.")
    page.open("solo", "2x2:1b4i3_2a")
    tally.same("a search after it", page.solution(), "The only solution is below.")


def broken(page, tally, game, text, mark):
    """An ID that is refused: the page marks the place, and keeps its board."""
    page.open()
    page.choose(game)
    page.until(f"shows {game}", lambda: page.all(f"#stage .{game}"))
    page.put("#id", text)
    page.click("#enter")
    page.until(f"refuses {text}", lambda: page.text("#fault"))
    tally.same(f"{game} {text}", [found.text for found in page.all("#fault mark")], [mark])
    tally.same(f"{game} {text}: the board", len(page.all("#stage .board")), 1)


def hostile(page, tally):
    """Any text in any field: a word of the page's own comes, and nothing of it becomes a part of the page."""
    page.open()
    parts = "return document.querySelectorAll('*').length"
    for text in HOSTILE:
        for field, button, said in [("#id", "#enter", "#fault"), ("#seed", "#generate", "#answer")]:
            page.driver.execute_script("for (const id of ['fault', 'answer']) document.getElementById(id).textContent = ''")
            before = page.driver.execute_script(parts)
            page.put(field, text)
            shown = page.one("#id").get_property("value")
            page.click(button)
            page.until(f"answers {text[:30]} in {field}",
                       lambda said=said, shown=shown: page.text(said) or page.one("#id").get_property("value") != shown)
            if page.one("#id").get_property("value") == shown:
                tally.same(f"{text[:30]} in {field}: new elements", page.driver.execute_script(parts) - before in range(4), True)
            seen = len(page.all("img")), page.driver.title.endswith("– puzzles")
            tally.same(f"{text[:30]} in {field}: images, title", seen, (0, True))
