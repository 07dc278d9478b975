"""What players expect beside the board: puzzles of days, the end, pause, zoom, rules, keys, links, and making on behind."""
import json

from page.driver import Keys

TENTS = "3x3:aaaaa,2,0,2,2,0,2"
CORNERS = (0, 2, 6, 8)  # its tents
LARGE = "30x30:" + "/" * 59
SOLO = "2x2:1b4i3_2a"
SLOW = """
    window.real ||= window.fetch; window.held = [];
    window.fetch = (url, how) => (String(url).endsWith('generate') && !window.isQuick
      ? new Promise((done) => { window.held.push(() => done(window.real(url, how))) }) : window.real(url, how));
"""
RELEASE = "window.isQuick = true; for (const go of window.held) go(); window.held = []"


def try_expected(page, server, tally):
    for part in (day, calendar, end, paused, zoom, rules, keys, links, behind, stopped, ahead, full):
        part(page, server, tally)


def kept(page, name):
    return json.loads(page.script("return localStorage.getItem(arguments[0])", name) or "null")


def the_id(page):
    return page.one("#id").get_property("value")


def day(page, server, tally):
    """The puzzle of a day is that of its seed, also where the server is late at first, and the same in each browser."""
    made = []
    for is_late in (False, True):
        page.open("tents", TENTS)
        page.script("document.getElementById('difficulty').value = 'easy'")
        if is_late:
            page.script("""let late = 4; const real = window.fetch;
                window.fetch = (url, how) => (String(url).endsWith('generate') && late-- > 0
                  ? Promise.resolve(new Response('{"failed": "clock"}')) : real(url, how))""")
        page.click("#today")
        page.until("makes the day's", lambda: the_id(page) != TENTS and page.is_ready())
        made.append(the_id(page))
    tally.same("the same for a slow server", made[1], made[0])
    found = page.driver.execute_async_script("""const [done] = arguments;
        Promise.all(['seeds', 'days'].map((name) => import(`${location.origin}/${name}.js`)))
          .then(([{ SEEDS }, { seedOf, today }]) => done(seedOf(SEEDS['tents 8x8 easy'], today())))""")
    tally.same("the seed's puzzle", made[0], server.made("tents", "8x8", found, budget="0")["id"])
    tally.true("its day is named", page.text("#level")[:1].isdigit())


def calendar(page, server, tally):
    """A month of days: those to come can't be chosen, a solved one is marked, and days in a row are counted."""
    page.open("tents", TENTS)
    page.script("document.getElementById('difficulty').value = 'easy'")
    page.click("#month-of")
    today = page.script("return document.querySelector('#days [aria-current]').value")
    states = page.script("return [...document.querySelectorAll('#days button')].map(({ value, disabled }) => [value, disabled])")
    tally.same("days to come", [name for name, off in states if off], [name for name, _ in states if name > today])
    page.click("#earlier")
    first = page.script("return document.querySelector('#days button').value")
    tally.true(f"the month before: {first}", first < today[:8])
    page.click("#days button")
    page.until("opens a day", lambda: the_id(page) != TENTS and page.is_ready())
    text = the_id(page)
    grid = server.ask("solve", {"game": "tents", "id": text})[2]["grids"][0]
    wide = len(grid[0])
    for place, sign in enumerate("".join(grid)):
        if sign == "^":
            page.cells()[place].click()
    page.until_said("Correct.")
    tally.same("a day that was solved", list(kept(page, "puzzles days")), [first])
    page.click("#others")
    page.click("#earlier")
    done = page.script("return [...document.querySelectorAll('#days .done')].map(({ value }) => value)")
    tally.same("its mark", (done, wide), ([first], 8))
    tally.same("no day in a row", page.text("#streak"), "0 days in a row; the most were 0.")
    page.click("#calendar [data-close]")


def end(page, _, tally):
    """At the end: the time, the hints, the next puzzle, and the result as a text."""
    page.open("tents", TENTS)
    page.presses()
    for place in CORNERS:
        page.cells()[place].click()
    page.until_said("Correct.")
    said = page.text("#outcome")
    tally.true(f"the outcome: {said}", said.startswith("Time 0:") and said.endswith("1 hint."))
    page.script("navigator.share = (what) => { window.shared = what; return Promise.resolve() }")
    page.click("#brag")
    shared = page.script("return window.shared")
    text = shared["text"]
    tally.true(f"the result: {shared}", text.startswith("Tents 3 × 3: solved in 0:") and text.endswith("1 hint"))
    tally.true("no cell in it", "^" not in text)
    row = page.script("return document.querySelector('#solved tr:nth-child(2)').textContent")
    tally.same("solved with a hint", row[:len("Tents 3 × 310–")], "Tents 3 × 310–")
    page.select("#size", "5x5")
    page.click("#next")
    page.until("makes the next", lambda: the_id(page) != TENTS and page.is_ready())


def paused(page, _, tally):
    """The clock stops, and the board is hidden."""
    page.open("tents", TENTS)
    page.script("document.getElementById('settings').open = true")
    page.click("#is-clock")
    page.cells()[0].click()
    page.click("#pause")
    seen = page.script("return getComputedStyle(document.querySelector('#stage .board')).visibility")
    before = page.text("#clock")
    page.script("window.since = performance.now()")
    page.until("waits", lambda: page.script("return performance.now() - window.since > 2200"))
    page.keys(Keys.ARROW_RIGHT, "x")
    tally.same("paused", (seen, page.text("#clock"), page.signs()[1:3]), ("hidden", before, ["tree", "blank"]))
    page.click("#pause")
    page.until("goes on", lambda: page.text("#clock") > before)
    page.script("document.getElementById('settings').open = true")
    page.click("#is-clock")


def zoom(page, _, tally):
    """A large board is shown larger, by buttons and keys; a small one needn't be."""
    page.size(390, 664)
    page.open("pattern", LARGE)
    side = lambda: page.script("return document.querySelector('#stage .cell').getBoundingClientRect().width")
    before = side()
    page.click("#larger")
    page.click("#larger")
    tally.true(f"larger: {before}, {side()}", side() > 1.9 * before)
    page.script("document.querySelector('#stage .cell').focus()")
    page.keys("--")
    tally.true("smaller by keys", abs(side() - before) < 1)
    page.open("tents", TENTS)
    tally.same("none for a small one", page.one("#zoom").is_displayed(), False)
    page.size(1280, 800)


def rules(page, _, tally):
    """Each game's rules with an example whose solution the program gives, and the keys on a sheet by `?`."""
    for game, text in (("solo", SOLO), ("pattern", "5x1:1/1//1/1/2.2"), ("lightup", "2x2:2c"), ("tents", TENTS)):
        page.open(game, text)
        page.cells()[0].click()
        page.keys("?")
        page.until("opens the sheet", lambda: page.one("#help").is_displayed())
        shown = page.driver.execute_async_script("""const [game, done] = arguments;
            import(`${location.origin}/games.js`).then(({ GAMES }) => done([GAMES[game].example, GAMES[game].solved]))""", game)
        told = page.driver.execute_async_script("""const [game, id, done] = arguments;
            const headers = { 'Content-Type': 'application/json' }, body = JSON.stringify({ game, id });
            fetch('solve', { method: 'POST', headers, body }).then((reply) => reply.json()).then(done)""", game, shown[0])
        tally.same(f"the example of {game}", (told["verdict"], "".join(told["grids"][0]).replace(" ", "")), ("one", shown[1]))
        tally.true(f"rules of {game}", len(page.all("#rules p")) >= 2 and len(page.all("#examples figure")) == 2)
        page.keys(Keys.ESCAPE)
        tally.same(f"the sheet of {game} closes", page.one("#help").is_displayed(), False)


def keys(page, _, tally):
    """Esc closes the words."""
    page.open("solo", SOLO)
    page.cells()[1].click()
    page.answer("#hint")
    page.cells()[1].click()
    page.keys("h", Keys.ESCAPE)
    page.until("closes", lambda: not page.text("#answer"))
    tally.same("nothing is lit", page.having("house"), [])


def links(page, _, tally):
    """A sudoku of another page's link, or in a line with other signs for blank. A game that isn't here is told by its name."""
    for given, text in (("https://puzz.link/p?sudoku/4/4/1h4n3i", "2x2:1b4h3c"), ("1__4____________", "2x2:1b4l"),
                        ("1**4" + "." * 12, "2x2:1b4l")):
        page.open("tents", TENTS)
        page.put("#id", given)
        page.click("#enter")
        page.until(f"opens {given}", lambda text=text: the_id(page) == text)
    for given, said in (("https://puzz.link/p?slither/4/4/1h4", "There is no game “slither” here."),
                        ("loopy/7x7t0:a3b", "There is no game “loopy” here."),
                        ("https://sudokus.example/today", "This link names no game that is here."),
                        ("https://swaroopg92.github.io/penpa-edit/#m=edit&p=7VRNb9s", "This link is of a drawing,")):
        page.open("tents", TENTS)
        before = page.signs()
        page.put("#id", given)
        page.click("#enter")
        page.until(f"refuses {given}", lambda: page.text("#fault"))
        tally.true(f"what {given} is: {page.text('#fault')}", page.text("#fault").startswith(said))
        tally.same("the board stays", page.signs(), before)


def behind(page, _, tally):
    """What isn't there soon is made on while one plays; then it is offered, or shown if nothing was done."""
    page.open("tents", TENTS)
    page.script(SLOW)
    page.select("#size", "5x5")
    page.click("#generate")
    page.until_said("still being made")
    page.cells()[0].click()
    page.script(RELEASE)
    page.until_said("Your new puzzle is there.")
    tally.same("the board of before", the_id(page), TENTS)
    page.click("#answer button")
    page.until("opens it", lambda: the_id(page) != TENTS)


def stopped(page, _, tally):
    """Stop ends it."""
    page.open("tents", TENTS)
    page.script(SLOW)
    page.select("#size", "5x5")
    page.click("#generate")
    page.until_said("still being made")
    page.click("#answer button")
    tally.same("what Stop says", page.text("#answer"), "Stopped.")
    page.script(RELEASE)
    page.script("window.since = performance.now()")
    page.until("waits", lambda: page.script("return performance.now() - window.since > 1500"))
    tally.same("nothing comes", (the_id(page), page.text("#answer")), (TENTS, "Stopped."))


def ahead(page, _, tally):
    """After some steps the next puzzle is made; then New puzzle shows it without a call."""
    page.open("tents", TENTS)
    page.select("#size", "5x5")
    for _ in range(4):
        page.cells()[4].click()
        page.cells()[0].click()
        page.cells()[4].click()
    page.script("window.since = performance.now()")
    page.until("waits", lambda: page.script("return performance.now() - window.since > 1500"))
    page.script("window.calls = 0; const real = window.fetch;"
                "window.fetch = (...all) => { window.calls += 1; return real(...all) }")
    page.click("#generate")
    page.until("shows it", lambda: the_id(page).startswith("5x5:"))
    tally.same("calls for a puzzle that was there", page.script("return window.calls"), 0)


def full(page, _, tally):
    """Where the browser keeps nothing more that is said, once."""
    page.open("solo", SOLO)
    page.script("Storage.prototype.setItem = () => { throw new Error('no room') }")
    page.cells()[1].click()
    page.keys("2")
    page.until_said("keeps nothing more")
    page.keys("3")
    page.until("says it once", lambda: not page.text("#answer"))
