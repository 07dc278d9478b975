"""Fingers and eyes: sizes of controls, words that fit, what is wrong by its form, and the sheet of words."""
from page.driver import Keys

SOLO = "2x2:1b4i3_2a"  # the rows 1 2 3 4, 3 4 1 2, 2 1 4 3, 4 3 2 1
NINE = "3x3:b7_8a6g7a6a4e5a2c5e6a2a3a8b1_7b4b8e5e1a9c4b5_4c3b2"
TENTS = "2x2:_c,0,1,1,0"
ROW = "5x1:1/1//1/1/2.2"
SIXTEEN = "4x4:" + "z" * 9 + "v"
FINGER = 44  # pixels of a control
PHONES = [(390, 664), (390, 844), (360, 640), (320, 568), (844, 390)]
CONTROLS = """
    const isSeen = (found) => found.getClientRects().length && !found.closest('details:not([open]) > :not(summary)');
    return [...document.querySelectorAll('button, select, input:not([type=checkbox]), summary, textarea, .box')].filter(isSeen)
      .map((found) => { const { width, height } = found.getBoundingClientRect();
        const name = found.id || found.value || found.textContent;
        return [name, Math.round(width), Math.round(height)]; });
"""
OUT = """
    const isOut = (found) => found.scrollWidth > found.clientWidth + 1 || found.scrollHeight > found.clientHeight + 1;
    return [...document.querySelectorAll('button, select, summary')]
      .filter((found) => found.getClientRects().length && isOut(found)).map((found) => found.id || found.textContent);
"""


def try_fingers(page, server, tally):
    for part in (sizes, numbers, games, clue_numbers, german, wrong_forms, newest, ring, asked_twice, sheet, heading):
        part(page, server, tally)


def sizes(page, _, tally):
    """Each control of a phone has 44 pixels, the numbers too; nine of them stand in two rows."""
    for wide, high in PHONES:
        page.size(wide, high, is_mobile=True)
        for game, text in (("solo", NINE), ("solo", SIXTEEN), ("pattern", ROW)):
            page.open(game, text)
            page.script("for (const found of document.querySelectorAll('details')) found.open = true")
            controls = page.script(CONTROLS)
            small = [one for one in controls if min(one[1:]) < FINGER]
            tally.same(f"small controls of {game} {text[:4]} at {wide}x{high}", small, [])
            tally.true(f"controls of {game} at {wide}x{high}", len(controls) > 20)
    page.size(1280, 800)


def numbers(page, _, tally):
    """Numbers of a phone stand in rows that are alike."""
    page.size(390, 664)
    for text, rows in ((NINE, [5, 4]), (SIXTEEN, [8, 8]), (SOLO, [4])):
        page.open("solo", text)
        tops = page.script("return [...document.querySelectorAll('#pad button')].map("
                           "(found) => found.getBoundingClientRect().top)")
        tally.same(f"rows of the numbers of {text[:4]}", [tops.count(top) for top in sorted(set(tops))], rows)
    page.size(1280, 800)


def games(page, _, tally):
    """The name of each game is seen whole."""
    page.size(390, 664)
    for game in ("solo", "pattern", "lightup", "tents"):
        page.open(game, {"solo": SOLO, "pattern": ROW, "lightup": "2x2:2c", "tents": TENTS}[game])
        wide, room = page.script("""
            const box = document.getElementById('game'), look = getComputedStyle(box);
            const pen = document.createElement('canvas').getContext('2d');
            pen.font = `${look.fontSize} ${look.fontFamily}`;
            const beside = parseFloat(look.paddingLeft) + parseFloat(look.paddingRight) + 24; // and the arrow
            return [pen.measureText(box.selectedOptions[0].text).width, box.clientWidth - beside];""")
        tally.true(f"the name of {game}: {wide} of {room}", wide <= room)
    page.size(1280, 800)


def clue_numbers(page, _, tally):
    """A tap anywhere on a clue crosses off its nearest number."""
    page.size(390, 664)
    page.open("pattern", ROW)
    for key in ("row 1.0", "row 1.1"):
        spot = page.script("const span = document.querySelector(`[data-key='${arguments[0]}']`);"
                           "const { left, right } = span.getBoundingClientRect();"
                           "const clue = document.querySelector('[role=rowheader]').getBoundingClientRect();"
                           "return [(left + right) / 2, clue.bottom - 2]", key)
        page.script("document.elementFromPoint(...arguments[0]).dispatchEvent(new MouseEvent('click',"
                    "{ bubbles: true, detail: 1, clientX: arguments[0][0], clientY: arguments[0][1] }))", spot)
        tally.same(f"the nearest number {key}", page.script("return [...document.querySelectorAll('#stage .off')].map("
                                                            "(found) => found.dataset.key).at(-1)"), key)
    page.size(1280, 800)


def german(page, _, tally):
    """At 320 pixels no word leaves its button, and the page is no wider than the phone."""
    page.size(320, 568)
    page.leave("localStorage.setItem('puzzles settings', JSON.stringify({ language: 'de' }))")
    for game, text in (("solo", NINE), ("tents", TENTS), ("pattern", ROW)):
        page.open(game, text, is_fresh=False)
        page.script("document.getElementById('settings').open = true")
        tally.same(f"German words of {game} at 320 pixels", page.script(OUT), [])
        tally.true(f"width of {game} at 320 pixels", page.script("return document.documentElement.scrollWidth") <= 320)
    page.size(1280, 800)
    page.leave("localStorage.clear()")


def looks_of(page, place, part=""):
    return page.script("const look = getComputedStyle(document.querySelectorAll('#stage .cell')[arguments[0]], arguments[1]);"
                       "return [look.textDecorationLine + ' ' + look.textDecorationStyle, look.backgroundImage, look.boxShadow]",
                       place, part)


def wrong_forms(page, _, tally):
    """What Check marks as wrong has a form of its own, beside its colour; wrong notes are told."""
    page.open("solo", SOLO)
    page.cells()[1].click()
    page.keys("3")
    page.answer("#check")
    tally.same("a wrong number", looks_of(page, 1)[0], "underline wavy")
    page.keys(Keys.DELETE, held=())
    page.keys("34", held=[Keys.SHIFT])
    said = page.answer("#check")
    tally.true(f"wrong notes: {said}", said.startswith("The notes of one cell lack its number."))
    tally.same("the cell with wrong notes", page.having("wrongNote"), [1])
    for game, text, keys in (("tents", TENTS, " "), ("pattern", ROW, "x"), ("lightup", "2x2:2c", "x")):
        page.open(game, text)
        place = {"tents": 2, "pattern": 0, "lightup": 1}[game]
        page.cells()[place].click()
        page.keys(Keys.DELETE, keys)
        page.answer("#check")
        tally.true(f"a wrong cell of {game}: {page.marked()}", "gradient" in looks_of(page, place, "::before")[1])


def newest(page, _, tally):
    """What was just put down shows that it breaks a rule, within the ring of the focus."""
    page.open("lightup", "3x2:1e")
    page.cells()[3].click()
    page.cells()[5].click()
    widths = [looks_of(page, place)[2].split("px")[3].strip() for place in (3, 5)]
    tally.same("red frames, the newer one wider", widths, ["3", "6"])


def ring(page, _, tally):
    """After a hint by a key the focus stands on the cell that was told."""
    page.open("solo", SOLO)
    page.cells()[15].click()
    for _ in range(9):
        page.keys("h")
        page.until("says", lambda: page.text("#answer") and page.is_ready())
        if "Press Hint again" not in page.text("#answer"):
            break
    at = page.script("return [...document.querySelectorAll('#stage .cell')].indexOf(document.activeElement)")
    tally.same("the focus after a hint", [at], page.marked())
    page.keys(page.shown()[str(at)])
    tally.true("a digit goes there", page.signs()[at].split(",")[0] == page.signs()[at][0])


def asked_twice(page, _, tally):
    """Solve asks before it shows all."""
    page.open("solo", SOLO)
    tally.true("Solve asks", "Press Solve again" in page.answer("#solve"))
    tally.same("nothing is shown yet", len(page.all("#solutions figure")), 0)
    tally.same("Solve shows", page.answer("#solve"), "The only solution is below.")
    beside = page.script("return [...document.querySelectorAll('#check, #solve')].map((found) => found.parentElement.id)")
    tally.same("Solve isn't beside Check", beside, ["act", "more"])


def sheet(page, _, tally):
    """The words on a phone are a sheet that closes, hides no line by half for good, and never hides Hint or the numbers."""
    page.size(390, 664)
    for game, text in (("solo", NINE), ("tents", TENTS), ("pattern", ROW), ("lightup", "2x2:2c")):
        page.open(game, text)
        page.presses()
        page.script("scrollTo(0, 0)")
        tops = page.script("return ['#sheet', '#hint', '#pad'].map((name) => document.querySelector(name))"
                           ".map((found) => found.getBoundingClientRect()).map(({ top, bottom }) => [top, bottom])")
        tally.true(f"the sheet of {game}: {tops}", tops[0][0] >= tops[1][1] and tops[0][0] >= tops[2][1] - 1)
        page.script("scrollTo(0, document.documentElement.scrollHeight)")
        foot = page.script("return document.querySelector('footer').getBoundingClientRect().bottom"
                           " - document.querySelector('#sheet').getBoundingClientRect().top")
        tally.true(f"the end of the page with {game} is in sight: {foot}", foot <= 1)
        page.click("#close")
        tally.same(f"closed in {game}", (page.text("#answer"), page.marked()), ("", []))
    page.size(1280, 800)


def heading(page, _, tally):
    """A phone has a heading for a screen reader; with less motion nothing glides."""
    page.size(390, 664)
    page.open("solo", SOLO)
    tally.true("a heading", page.script("return document.querySelector('h1').checkVisibility()"))
    wished = [{"name": "prefers-reduced-motion", "value": "reduce"}]
    page.driver.execute_cdp_cmd("Emulation.setEmulatedMedia", {"features": wished})
    page.script("Element.prototype.scrollIntoView = function (how) { window.glide = how.behavior }")
    page.script("document.getElementById('solve').click(); document.getElementById('solve').click()")
    page.until("shows", lambda: page.all("#solutions figure"))
    tally.same("no gliding", page.script("return window.glide"), "auto")
    page.driver.execute_cdp_cmd("Emulation.setEmulatedMedia", {"features": []})
    page.size(1280, 800)
