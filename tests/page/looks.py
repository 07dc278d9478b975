"""How the page looks in a browser: a phone, dark, forced colours, paper; and what a keyboard and a screen reader reach."""
import base64
import re

from page.driver import Keys
from page.asked import LONG

PHONE, DESK, LYING = (390, 664), (1280, 900), (844, 390)
LEAST = 24  # pixels of a cell
CONTRAST = 4.5  # of text, as WCAG asks for
TEXTS = "h1, p, button:enabled:not(.met), select, label, .cell:not(.met), .clue:not(.met), footer, small"
GAMES = [("solo", "3x3"), ("pattern", "15x15"), ("lightup", "10x10"), ("tents", "8x8")]
NAMES = {"solo": "Solo 9 × 9", "pattern": "Pattern ", "lightup": "Light Up 10 × 10", "tents": "Tents 8 × 8"}
LIGHT = """
    const parts = (color) => (color.match(/[\\d.]+/g) || []).map(Number);
    const shade = ([r, g, b]) => [r, g, b].map((c) => (c / 255 <= .03928 ? c / 255 / 12.92 : ((c / 255 + .055) / 1.055) ** 2.4))
      .reduce((sum, c, k) => sum + c * [.2126, .7152, .0722][k], 0);
    const ground = (found) => {
      for (let at = found; at; at = at.parentElement) {
        const color = parts(getComputedStyle(at).backgroundColor);
        if (color.length === 3 || color[3] > 0) return color;
      }
      return [255, 255, 255];
    };
    const contrast = (found) => { const [a, b] = [shade(parts(getComputedStyle(found).color)), shade(ground(found))];
      return (Math.max(a, b) + .05) / (Math.min(a, b) + .05); };
"""


def try_looks(page, server, tally):
    made = {}
    for game, size in GAMES:
        made[game] = made_by(server, game, size, "25")
    phone(page, server, tally, made)
    lying(page, tally, made)
    large(page, tally)
    dark(page, tally, made)
    forced(page, tally, made)
    paper(page, tally, made)
    keyboard(page, tally, made)
    names(page, tally)


def made_by(server, game, size, black):
    return server.made(game, size, "4", **({"black": black} if game == "lightup" else {}))["id"]


def media(page, kind="", **features):
    wished = [{"name": name.replace("_", "-"), "value": value} for name, value in features.items()]
    page.driver.execute_cdp_cmd("Emulation.setEmulatedMedia", {"media": kind, "features": wished})


def phone(page, server, tally, made):
    """Cells that a finger hits, words and board on one screen, and no page that is wider than the phone."""
    page.size(*PHONE)
    for game, size in {"pattern": "30x30", "lightup": "20x20", "tents": "15x15", "solo": "4x4"}.items():
        for text in (made[game], made_by(server, game, size, "30")):
            page.open(game, text)
            wide = page.script("return document.documentElement.scrollWidth")
            tally.true(f"the page with {game} {text[:8]} on a phone: {wide}", wide <= PHONE[0])
            over = page.script("const stage = document.getElementById('stage'); return stage.scrollWidth - stage.clientWidth")
            if size in ("15x15", "4x4") or text == made[game]:
                tally.true(f"the board of {game} {text[:8]} fits a phone: {over}", over <= 1)
            else:
                tally.true(f"a cell of {game} {text[:8]} on a phone", min(sides(page, "#stage [role=gridcell]")) >= LEAST)
    for game, text in made.items():
        page.open(game, text)
        page.script("scrollTo(0, 0)")
        page.hint()
        page.script("scrollTo(0, 0)")
        board, words = (edges(page, name) for name in ("#stage", "#answer"))
        tally.true(f"words and board of {game} on one screen: {board}, {words}",
                   board[0] >= 0 and words[1] <= PHONE[1] and words[0] >= board[1] - 1)
        tally.true(f"Hint of {game} beside its words", edges(page, "#hint")[1] <= words[0])
    page.open("solo", "2x2:5o")
    in_sight = edges(page, "#answer")[1] <= PHONE[1]
    tally.true("why a link is refused is in sight", "This ID is refused" in page.text("#answer") and in_sight)
    action = page.script("return getComputedStyle(document.querySelector('.board')).touchAction")
    tally.same("no zoom by two taps", action, "manipulation")
    page.size(*DESK)


def edges(page, selector):
    """The upper and the lower edge on the screen."""
    return page.script("const { top, bottom } = document.querySelector(arguments[0]).getBoundingClientRect();"
                       "return [top, bottom]", selector)


def lying(page, tally, made):
    """On a phone that lies board, numbers, Hint and its words are all in sight."""
    page.size(*LYING, is_mobile=True)
    for game in ("solo", "lightup"):
        page.open(game, made[game])
        page.hint()
        for name in ("#stage .board", "#pad", "#hint", "#answer"):
            low = edges(page, name)[1]
            tally.true(f"{name} of {game} on a phone that lies: {low}", low <= LYING[1] + 1)
    page.size(*DESK)


def large(page, tally):
    """Where a board is larger than the screen its clues stay in sight, and the chosen cell's are lit."""
    page.size(*PHONE)
    page.open("pattern", LONG)
    page.script("const stage = document.getElementById('stage'); stage.scrollTo(400, 400); stage.scrollIntoView()")
    stage = page.script("const { left, top } = document.getElementById('stage').getBoundingClientRect(); return [left, top]")
    column = page.script("const { top } = document.querySelector('[role=columnheader]').getBoundingClientRect(); return top")
    row = page.script("const { left } = document.querySelector('[role=rowheader]').getBoundingClientRect(); return left")
    tally.true("clues that stay in sight", abs(row - stage[0]) < 5 and abs(column - stage[1]) < 5)
    page.size(*DESK)
    page.open("pattern", LONG)
    page.cells()[61].click()
    lit = [head.get_attribute("aria-label").partition(":")[0] for head in page.all("#stage .clue.at")]
    tally.same("the clues of the chosen cell", lit, ["column 2", "row 2"])


def sides(page, selector):
    return page.script("const { width, height } = document.querySelector(arguments[0]).getBoundingClientRect();"
                       "return [width, height]", selector)


def dark(page, tally, made):
    """Dark if the visitor prefers it, and each text can be read, in both."""
    for scheme in ("light", "dark"):
        media(page, prefers_color_scheme=scheme)
        for game, text in made.items():
            page.open(game, text)
            page.hint()
            shade = page.script(LIGHT + "return shade(ground(document.body))")
            tally.true(f"the ground of {game}, {scheme}", shade < 0.1 if scheme == "dark" else shade > 0.7)
            poor = page.script(LIGHT + "return [...document.querySelectorAll(arguments[0])]"
                               ".filter((found) => found.innerText && contrast(found) < arguments[1])"
                               ".map((found) => `${found.tagName} ${found.className} ${found.innerText} ${contrast(found)}`)",
                               TEXTS, CONTRAST)
            tally.same(f"texts of {game} that are hard to read, {scheme}", poor, [])
    media(page)


def forced(page, tally, made):
    """With forced colours (high contrast) the board has its lines, black cells and pictures."""
    media(page, forced_colors="active", prefers_color_scheme="dark")
    for game, text in made.items():
        page.open(game, text)
        if game != "solo":
            page.script("document.querySelector('#stage .cell:not(.fixed)').click()")
        looks = page.script("return [...document.querySelectorAll('#stage .cell')].map((cell) => getComputedStyle(cell))"
                            ".map((look) => [look.backgroundColor, look.boxShadow !== 'none', look.backgroundImage !== 'none',"
                            " look.color])")
        grounds = {look[0] for look in looks}
        tally.true(f"lines of {game} with forced colours", all(look[1] for look in looks))
        if game in ("pattern", "lightup"):
            tally.true(f"black and white of {game} with forced colours", {"rgb(0, 0, 0)", "rgb(255, 255, 255)"} <= grounds)
        if game in ("lightup", "tents"):
            tally.true(f"pictures of {game} with forced colours", any(look[2] for look in looks))
        clash = [look for look in looks if look[0] == look[3]]
        tally.same(f"signs of {game} with forced colours", clash, [])
    page.open("solo", made["solo"])
    page.click("#notes")
    rims = page.script("return ['#notes', '#corners'].map((name) => getComputedStyle(document.querySelector(name)).outlineStyle)")
    tally.same("a pressed button with forced colours", rims, ["solid", "none"])
    media(page)


def paper(page, tally, made):
    """On paper: name and ID, a board as wide as the paper, and nothing but the puzzle."""
    for game, text in made.items():
        page.open(game, text)
        made_pdf = page.driver.execute_cdp_cmd("Page.printToPDF", {"paperWidth": 8.27, "paperHeight": 11.69})
        pdf = base64.b64decode(made_pdf["data"])
        tally.same(f"pages of {game} {text[:6]}", len(re.findall(rb"/Type\s*/Page\b", pdf)), 1)
        media(page, "print")
        page.size(718, 1047)  # A4 at 96 dots an inch, less its margins
        seen = page.script("return [...document.querySelectorAll('body *')].filter((found) => !found.closest('.board')"
                           " && found.innerText && found.getClientRects().length).map((found) => found.id || found.tagName)")
        wanted = {"MAIN", "puzzle", "name", "controls", "rule", "level", "stage", "written"}
        tally.true(f"parts of {game} on paper: {seen}", set(seen) <= wanted)
        tally.true(f"name of {game} on paper", page.text("#name").startswith(NAMES[game]))
        tally.same(f"ID of {game} on paper", page.text("#written"), text)
        box = sides(page, "#stage .board")
        tally.true(f"{game} {text[:6]} on paper: {box}", box[0] <= 718 and (box[0] > 540 or box[1] > 700))
        page.size(*DESK)
        media(page)
    inked(page, tally)


def inked(page, tally):
    """Paper has the empty board, or by the player's choice what is filled in."""
    page.open("pattern", "5x1:1/1//1/1/2.2")
    page.cells()[0].click()
    media(page, "print")
    ground = "return getComputedStyle(document.querySelector('#stage .cell')).backgroundColor"
    empty = page.script(ground)
    page.script("document.body.classList.add('filled')")
    tally.same("an empty board, and what is filled in", (empty, page.script(ground) != empty), ("rgb(255, 255, 255)", True))
    media(page)


def keyboard(page, tally, made):
    """Tab reaches each box and button, and the board once."""
    page.open("solo", made["solo"])
    page.cells()[0].click()
    page.keys(Keys.DELETE)
    page.script("document.activeElement.blur()")
    reached = []
    for _ in range(70):
        page.keys(Keys.TAB)
        reached.append(page.script("const at = document.activeElement; return String(at.id || at.value || at.role)"))
    wanted = {"game", "gridcell", "notes", "check", "hint", "solve", "grade", "size", "difficulty", "seed",
              "generate", "id", "enter", *map(str, range(1, 10))}
    begin = reached.index("game")
    once = reached[begin:reached.index("game", begin + 1)]
    tally.same("what Tab doesn't reach", sorted(wanted - set(once)), [])
    tally.same("the board is one stop", once.count("gridcell"), 1)


def names(page, tally):
    """What a screen reader tells of cells and of what changes: first what stands there, then where."""
    page.open("pattern", "5x1:1/1//1/1/2.2")
    label = lambda place: page.cells()[place].get_attribute("aria-label")
    tally.same("a cell of Pattern", label(2), "blank; row 1 (clue 2 2), column 3 (clue 0)")
    page.open("tents", "2x2:_c,0,1,1,0")
    tally.same("a tree of Tents", label(0), "tree; row 1 (clue 1), column 1 (clue 0)")
    rows = [row.get_attribute("aria-label") for row in page.all("#stage [role=row]")]
    tally.same("rows of Tents", rows, ["row 1", "row 2", "columns"])
    page.open("solo", "2x2:1b4i3_2a")
    tally.same("cells of Solo", (label(0), label(1)), ("1, given; row 1, column 1", "blank; row 1, column 2"))
    read_only = [cell.get_attribute("aria-readonly") for cell in page.cells()[:2]]
    tally.same("givens are read-only", read_only, ["true", None])
    page.hint()
    tally.true("a hint", ", hint, here " in label(page.marked()[0]))
    roles = page.script("return ['answer', 'fault'].map((id) => document.getElementById(id).getAttribute('role'))")
    tally.same("what is told as it changes", roles, ["status", "alert"])
