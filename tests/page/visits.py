"""What a player opens and leaves, in a browser: begun puzzles, two tabs, IDs and links, settings, languages, today's puzzle,
what was solved, drawings, and links that are shared."""
import datetime

from page.boards import ROW, SOLO, TENTS, WHITE
from page.comfort import setting

SUDOKU = "53..7....6..195....98....6.8...6...34..8.3..17...2...6.6....28....419..5....8..79"
SUDOKU_ID = "3x3:5_3b7d6b1_9_5d9_8d6a8c6c3_4b8a3b1_7c2c6a6d2_8d4_1_9b5d8b7_9"


def try_visits(page, server, tally):
    for part in (begun, tabs, opened, settings, languages, today, solved, pictures, sharing):
        part(page, server, tally)


def begun(page, _, tally):
    """The puzzles that were begun are listed, and one of them goes on."""
    page.open("solo", SOLO)
    page.cells()[1].click()
    page.keys("2")
    page.open("tents", TENTS, is_fresh=False)
    page.cells()[1].click()
    page.until_said("Correct.")
    page.open("pattern", ROW, is_fresh=False)
    listed = [option.text for option in page.all("#begun option")][1:]
    tally.same("begun puzzles", listed, ["Tents 2 × 2: solved", "Solo 4 × 4: 1 of 12"])
    page.select("#begun", f"solo/{SOLO}")
    page.until("goes on", lambda: page.all("#stage .solo") and page.is_ready())
    tally.same("as it was left", page.signs()[1], "2")


def tabs(page, _, tally):
    """Two tabs of one puzzle don't write over one another."""
    page.open("pattern", WHITE)
    first = page.driver.current_window_handle
    page.driver.switch_to.new_window("tab")
    page.driver.get(f"{page.url}#pattern/{WHITE}")
    page.until("opens a second tab", page.is_ready)
    page.cells()[3].click()
    page.driver.close()
    page.driver.switch_to.window(first)
    page.until("follows the other tab", lambda: page.signs()[3] == "black")
    page.cells()[4].click()
    page.driver.refresh()
    page.until("reloads", page.is_ready)
    tally.same("the work of both", page.signs()[3:5], ["black", "black"])


def opened(page, _, tally):
    """A sudoku of 81 characters, a whole link, and an ID of another game are taken."""
    for given, game, text in [(SUDOKU, "solo", SUDOKU_ID), (SUDOKU.replace(".", "0"), "solo", SUDOKU_ID),
                              (f"see {page.url}#tents/2x2%3A_c%2C0%2C1%2C1%2C0", "tents", TENTS),
                              (f"https://puzzles.example/#pattern/{ROW}", "pattern", ROW),
                              ("3x3:aBBa1aBb", "lightup", "3x3:aBBa1aBb")]:
        page.open("solo", SOLO)
        page.put("#id", given)
        page.click("#enter")
        page.until(f"opens {given}", lambda game=game, text=text: page.one("#id").get_property("value") == text
                   and page.all(f"#stage .{game}"))
        tally.same(f"{given}: the address", page.script("return decodeURIComponent(location.hash)"), f"#{game}/{text}")
    tally.same("an ID of another game", page.text("#answer"), "That is an ID of Light Up.")
    page.open("solo", SOLO)
    page.put("#id", "nonsense")
    page.click("#enter")
    page.until("refuses", lambda: page.text("#fault"))
    tally.same("the example of the game", page.text("#fault"), "This ID is refused: it isn’t like 2x2:1b4i3_2a.")


def settings(page, _, tally):
    """Dark by choice, and the time; both stay."""
    page.open("solo", SOLO)
    ground = lambda: page.script("return getComputedStyle(document.body).backgroundColor")
    light = ground()
    page.script("document.getElementById('settings').open = true")
    page.select("#in-look", "dark")
    dark = ground()
    page.driver.refresh()
    page.until("reloads", page.is_ready)
    tally.same("dark by choice", (light != dark, ground() == dark), (True, True))
    setting(page, "clock")
    page.cells()[1].click()
    page.keys("3")
    page.until("counts", lambda: page.text("#clock") >= "0:02")
    page.driver.refresh()
    page.until("reloads", page.is_ready)
    tally.true("the time goes on", page.text("#clock") >= "0:01")
    page.script("document.getElementById('settings').open = true")
    page.select("#in-look", "")


def languages(page, _, tally):
    """Each text of the page is there in another language, and it stays."""
    page.open("solo", SOLO)
    page.script("document.getElementById('settings').open = true")
    page.select("#in-language", "de")
    page.until("speaks German", lambda: page.is_ready() and page.text("#hint") == "Tipp")
    tally.same("the language", page.script("return document.documentElement.lang"), "de")
    page.click("#hint")
    page.until("says where to look", lambda: "Block 1" in page.text("#answer"))
    tally.true("a hint in German", "Zeile" in page.answer("#hint"))
    label = page.script("return document.querySelector('#stage .cell').ariaLabel")
    tally.same("a cell in German", label, "1, vorgegeben; Zeile 1, Spalte 1")
    page.script("document.getElementById('settings').open = true")
    page.select("#in-language", "en")
    page.until("speaks English", lambda: page.is_ready() and page.text("#hint") == "Hint")
    gaps = page.driver.execute_async_script("""
        const [done] = arguments;
        const keys = (value, at = "") => (value && typeof value === "object"
          ? Object.entries(value).flatMap(([name, part]) => keys(part, `${at}.${name}`)) : [`${at} ${typeof value}`]);
        Promise.all(["en", "de"].map((name) => import(`${location.origin}/languages/${name}.js`))).then((all) => {
          const [en, de] = all.map((table) => keys(table.default));
          done([...en.filter((key) => !de.includes(key)), ...de.filter((key) => !en.includes(key))]);
        });""")
    tally.same("texts that one language hasn't", gaps, [])


def today(page, _, tally):
    """Everybody who asks on this day gets the same puzzle."""
    made = []
    for _ in range(2):
        page.open("tents", TENTS)
        page.select("#size", "8x8")
        page.click("#today")
        page.until("makes today's", lambda: page.one("#id").get_property("value") != TENTS)
        made.append(page.one("#id").get_property("value"))
    tally.same("today's puzzle", made[0], made[1])
    page.script("const real = Date; Date = class extends real { constructor() { super(2001, 1, 3) } }")
    page.click("#today")
    page.until("makes another day's", lambda: page.one("#id").get_property("value") != made[0])
    tally.true("another day's puzzle", datetime.date.today() != datetime.date(2001, 2, 3))


def solved(page, server, tally):
    """What was solved is counted, once for each puzzle."""
    page.open("tents", TENTS)
    page.script("document.getElementById('solved').open = true")
    for _ in range(2):
        page.cells()[1].click()
        page.until_said("Correct.")
        page.click("#startOver")
    rows = [row.text for row in page.all("#solved tr")]
    tally.same("what was solved", (len(rows), rows[1].startswith("Tents 2 × 2 1 ")), (2, True))


def pictures(page, server, tally):
    """Each drawing of Pattern has one solution, and its name is told at the end."""
    page.open("pattern", ROW)
    drawings = page.driver.execute_async_script("const [done] = arguments;"
                                                "import(`${location.origin}/pictures.js`).then((all) => done(all.PICTURES))")
    for name, text in drawings.items():
        tally.same(f"the drawing {name}", server.ask("solve", {"game": "pattern", "id": text})[2]["verdict"], "one")
    page.click("#picture")
    page.until("opens a drawing", lambda: page.one("#id").get_property("value") in drawings.values())
    page.open("pattern", drawings["heart"])
    grid = server.ask("solve", {"game": "pattern", "id": drawings["heart"]})[2]["grids"][0]
    for place, sign in enumerate("".join(grid)):
        if sign == "#":
            page.cells()[place].click()
    page.until_said("The puzzle is solved: a heart.")


def sharing(page, _, tally):
    """The link of the puzzle, by the device or into the clipboard."""
    page.open("tents", TENTS)
    page.script("navigator.share = (link) => { window.shared = link.url; return Promise.resolve() }")
    page.click("#share")
    tally.same("a shared link", page.script("return window.shared"), page.script("return location.href"))
