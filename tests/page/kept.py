"""What the page keeps, and which links it opens: in a browser, as a player comes and goes."""
import time

from page.driver import Keys
from page.asked import LONG

TENTS = "2x2:_c,0,1,1,0"
SOLO = "2x2:1b4i3_2a"  # the rows 1 2 3 4, 3 4 1 2, 2 1 4 3, 4 3 2 1


def try_kept(page, server, tally):
    for part in (kept, bounded, links, cut_off, quickly, refused_links, boxes):
        part(page, server, tally)


def kept(page, server, tally):
    """A reload, another puzzle, Back, and a new visit find the work as it was."""
    page.open("solo", SOLO)
    page.cells()[1].click()
    page.keys("2", Keys.ARROW_RIGHT, "3")
    before = page.signs()
    page.driver.refresh()
    page.until("reloads", page.is_ready)
    tally.same("after a reload", page.signs(), before)
    page.click("#generate")
    page.until("makes another", lambda: page.one("#id").get_property("value") != SOLO and page.is_ready())
    tally.true("what is said of the work", "Back returns to it" in page.text("#answer"))
    page.driver.back()
    page.until("goes back", lambda: page.one("#id").get_property("value") == SOLO)
    tally.same("after Back", page.signs(), before)
    page.open(is_fresh=False)
    tally.same("a new visit", (page.one("#id").get_property("value"), page.signs()), (SOLO, before))
    page.leave("localStorage.setItem('puzzles solo/2x2:1b4i3_2a', '<b>,9,' + '.,'.repeat(13) + '.')")
    page.open("solo", SOLO, is_fresh=False)
    tally.same("kept nonsense", page.signs().count("blank"), 12)
    page.leave("localStorage.setItem('puzzles solo/2x2:1b4i3_2a', '1,2,' + '.,4,'.repeat(1) + '.,'.repeat(9) + '3,2,.')")
    page.open("solo", SOLO, is_fresh=False)
    tally.same("what an older page kept", page.signs()[1], "2")
    page.leave("localStorage.setItem('puzzles solo/2x2:1b4i3_2a', '1,99,' + '.,4,' + '.,'.repeat(9) + '3,2,.')")
    page.open("solo", SOLO, is_fresh=False)
    tally.same("a number that is too large", page.signs()[1], "blank")
    page.script("Storage.prototype.setItem = () => { throw new Error('no room') }")
    page.cells()[1].click()
    page.keys("2")
    tally.same("a browser that keeps nothing", page.signs()[1], "2")


def bounded(page, _, tally):
    """So many puzzles are kept; if there is no room, older ones go."""
    page.open("solo", SOLO)
    page.script("for (let k = 0; k < 60; k += 1) localStorage.setItem(`puzzles old${k}`, '.');"
                "localStorage.setItem('puzzles', JSON.stringify(Array.from({ length: 60 }, (_, k) => `old${k}`)))")
    page.cells()[1].click()
    page.keys("2")
    names = page.script("return JSON.parse(localStorage.getItem('puzzles'))")
    there = page.script("return Object.keys(localStorage).filter((name) => /^puzzles (old|solo)/.test(name)).length")
    tally.same("puzzles kept", (len(names), names[-1], names[0], there), (50, f"solo/{SOLO}", "old11", 50))
    page.script("let text = 'x'.repeat(1 << 20); for (let k = 0; text; k += 1) { try { localStorage.setItem(`junk${k}`, text) } "
                "catch { text = text.slice(0, text.length >> 1) } }")
    page.keys(Keys.ARROW_RIGHT, "3")
    names = page.script("return JSON.parse(localStorage.getItem('puzzles'))")
    signs = page.script("return JSON.parse(localStorage.getItem(arguments[0])).signs", f"puzzles solo/{SOLO}")
    tally.same("no room", (names[-1], signs),
               (f"solo/{SOLO}", "1,2,3,4,.,.,.,.,.,.,.,.,.,3,2,."))


def links(page, _, tally):
    """Links of any length, as mail programs write them, and a changed address."""
    page.open("pattern", LONG)
    tally.true("a long link", len(page.script("return location.hash")) > 2000)
    page.cells()[0].click()
    page.driver.refresh()
    page.until("reloads a long link", page.is_ready)
    tally.same("a long link again", (page.one("#id").get_property("value"), page.signs()[0]), (LONG, "black"))
    tally.same("its size in the box", page.one("#size").get_property("value"), "60x60")
    page.open("tents", "2x2%3A_c%2C0%2C1%2C1%2C0")
    tally.same("a percent-encoded link", (page.one("#id").get_property("value"), len(page.cells())), (TENTS, 4))
    page.script("location.hash = arguments[0]", f"#solo/{SOLO}")
    page.until("another address", lambda: len(page.cells()) == 16)
    page.driver.back()
    page.until("back from another address", lambda: len(page.cells()) == 4)
    tally.same("back from another address", page.one("#game").get_property("value"), "tents")


def cut_off(page, _, tally):
    """If the server doesn't answer there is a board all the same, and words."""
    page.driver.execute_cdp_cmd("Network.enable", {})
    for game, text, blocked, said in (("", "", "*/generate", "The page’s server didn’t answer."),
                                      ("tents", TENTS, "*/check", "This link couldn’t be opened now.")):
        page.driver.execute_cdp_cmd("Network.setBlockedURLs", {"urls": [blocked]})
        page.open(game, text)
        page.until(f"says {said}", lambda said=said: said in page.text("#answer") + page.text("#fault"))
        tally.true(f"a board without {blocked}", page.is_ready())
    page.driver.execute_cdp_cmd("Network.setBlockedURLs", {"urls": []})


def quickly(page, _, tally):
    """Steps through the history that come before the answers to those before them."""
    page.open("solo", SOLO)
    page.cells()[1].click()  # a browser may take an address that no visitor's act led to in place of the one before
    for text in (TENTS, "2x2:d,0,0,0,0", "3x3:aaaaa,2,0,2,2,0,2"):
        page.script("location.hash = arguments[0]", f"#tents/{text}")
        page.until(f"shows {text}", lambda text=text: page.one("#id").get_property("value") == text)
    before = page.script("return history.length")
    page.script("history.go(-1); setTimeout(() => history.go(-1), 20)")
    time.sleep(1)
    shown = page.one("#id").get_property("value")
    tally.same("address and board", page.script("return decodeURIComponent(location.hash)"), f"#tents/{shown}")
    tally.same("the history's length", page.script("return history.length"), before)
    page.choose("solo")
    page.script("const box = document.getElementById('game'); for (const game of ['pattern', 'tents', 'solo'])"
                " { box.value = game; box.dispatchEvent(new Event('change')) }")
    time.sleep(1)
    seen = page.one("#id").get_property("value"), len(page.all("#stage .solo"))
    tally.same("a game that was chosen in haste", seen, (SOLO, 1))


def refused_links(page, _, tally):
    """A refused link says why, and there is a board."""
    for link, said in [("solo/2x2:5o", "This ID is refused: the marked number is too small or too large."),
                       ("sudoku/3x3:a", "This link names no game that is here."),
                       ("constructor/3x3:a", "This link names no game that is here."),
                       ("tents/2x2#12", "it is a seed of another program"),
                       ("solo/%zz", "This ID is refused: it isn’t like 2x2:1b4i3_2a.")]:
        page.open(*link.split("/"))
        page.until(f"refuses {link}", lambda: page.text("#fault"))
        tally.true(f"{link}: why", said in page.text("#fault"))
        tally.true(f"{link}: a board", len(page.cells()) > 3)
    page.open("solo", SOLO)
    page.script("location.hash = '#solo/2x2:5o'")
    page.until("refuses a changed address", lambda: page.text("#fault"))
    tally.same("the board stays", (len(page.cells()), page.script("return location.hash")), (16, f"#solo/{SOLO}"))


def boxes(page, _, tally):
    """No choice in a box throws work away, and a size that isn't made is told."""
    page.open("tents", TENTS)
    tally.same("a size that isn't made", page.answer("#generate"), "Puzzles of this size aren’t made.")
    page.open("solo", SOLO)
    page.cells()[1].click()
    page.keys("2")
    before = page.signs()
    for box in ("#size", "#difficulty"):
        page.one(box).send_keys(Keys.ARROW_DOWN)
    tally.same("after choices of size and difficulty", page.signs(), before)
    page.choose("tents")
    page.until("shows tents", lambda: page.all("#stage .tents") and page.is_ready())
    tally.true("what is said of the work", "Back returns to it" in page.text("#answer"))
    page.choose("solo")
    page.until("shows solo", lambda: page.all("#stage .solo") and page.is_ready())
    tally.same("the game again", page.signs(), before)
