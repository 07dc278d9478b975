"""Drawing on the board in a browser: by the mouse, by keys, by a finger; and what of a large board is painted anew."""
import time

from page.driver import ActionChains, By, Keys
from page.boards import WHITE

HELD = 0.4  # seconds that a finger holds
SCROLLS = 5  # tries of a finger that scrolls


def try_drawn(page, server, tally):
    for part in (drawing, touching, painting):
        part(page, server, tally)


def drag(page, places, button=0):
    """A mouse that goes over cells with its button down."""
    cells = page.cells()
    chain = ActionChains(page.driver, duration=50).move_to_element(cells[places[0]])
    if button:
        chain.w3c_actions.pointer_action.pointer_down(button=button)
    else:
        chain.click_and_hold()
    for place in places[1:]:
        chain.move_to_element(cells[place])
    if button:
        chain.w3c_actions.pointer_action.pointer_up(button=button)
    else:
        chain.release()
    chain.perform()


def drawing(page, _, tally):
    """A mouse draws over blank cells, fast too, in one step; with the other button it draws dots."""
    page.open("pattern", WHITE)
    page.cells()[12].click()
    page.cells()[12].click()  # a dot, which drawing leaves
    drag(page, [10, 14])
    tally.same("drawn black", page.signs()[10:15], ["black", "black", "dot", "black", "black"])
    drag(page, [0, 4], button=2)
    tally.same("drawn dots", page.signs()[:5], ["dot"] * 5)
    drag(page, [4, 0])
    tally.same("drawn away", page.signs()[:5], ["blank"] * 5)
    for _ in range(3):
        page.click("#undo")
    tally.same("each a step", page.signs()[:15], ["blank"] * 12 + ["dot"] + ["blank"] * 2)
    page.cells()[20].click()
    page.keys(Keys.ARROW_RIGHT, Keys.ARROW_RIGHT, held=[Keys.SHIFT])
    tally.same("drawn by keys", page.signs()[20:25], ["black"] * 3 + ["blank"] * 2)


def touch(page, places, hold):
    """A finger that goes over cells, after a hold or at once."""
    points = [page.script("const box = document.querySelectorAll('#stage [role=gridcell]')[arguments[0]].getBoundingClientRect();"
                          "return { x: box.x + box.width / 2, y: box.y + box.height / 2 }", place) for place in places]

    def send(kind, *at):
        page.driver.execute_cdp_cmd("Input.dispatchTouchEvent", {"type": kind, "touchPoints": list(at)})

    send("touchStart", points[0])
    time.sleep(hold)
    for begin, end in zip(points, points[1:]):
        for part in range(1, 9):
            send("touchMove", {axis: begin[axis] + (end[axis] - begin[axis]) * part / 8 for axis in "xy"})
    send("touchEnd")
    time.sleep(0.1)


def scrolled(page, before):
    """Whether a finger scrolls. On a busy machine its first move may come late, so that it draws; that is taken back."""
    for _ in range(SCROLLS):
        touch(page, [100, 4], 0)
        end = time.monotonic() + 2
        while time.monotonic() < end:
            if page.script("return scrollY + document.getElementById('stage').scrollTop") > 50:
                return True
        if page.signs() != before:
            page.script("document.getElementById('undo').click()")
    return False


def touching(page, server, tally):
    """A finger draws after a hold, and scrolls without; a tap is a click."""
    page.size(390, 500)
    page.open("pattern", "12x12:" + "/" * 23)
    page.script("scrollTo(0, 0)")
    touch(page, [24, 28], HELD)
    tally.same("drawn by a finger", page.signs()[24:30], ["black"] * 5 + ["blank"])
    touch(page, [30], 0.05)
    tally.same("a tap", page.signs()[30], "black")
    touch(page, [36], HELD)
    tally.same("a hold without a move", page.signs()[36], "black")
    page.script("scrollTo(0, 0)")
    before = page.signs()
    tally.true("a finger that scrolls", scrolled(page, before))
    tally.same("what a finger that scrolls leaves", page.signs(), before)
    page.open("lightup", "2x2:2c")
    touch(page, [1], 0.05)
    tally.same("a tap in Light Up", page.signs()[1], "bulb, lit")
    page.size(1280, 800)


def painting(page, _, tally):
    """Of a large board only what changes is touched."""
    page.open("lightup", "120x120:" + "z" * 553 + "v")
    page.script("window.touched = 0;"
                "new MutationObserver((list) => { window.touched += new Set(list.map(({ target }) => target)).size })"
                ".observe(document.querySelector('#stage'), { attributes: true, childList: true, subtree: true })")
    page.driver.find_element(By.CSS_SELECTOR, "#stage [role=gridcell]").click()
    page.until("lights", lambda: page.script("return window.touched") > 0)
    tally.true("cells that are touched", 239 <= page.script("return window.touched") <= 300)  # a row and a column
