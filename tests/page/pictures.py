"""A picture of each game, half filled and with a hint: on a desk, on a phone upright and lying; light, dark, and with forced
colours. For a look by a person."""
from pathlib import Path

from page import browser
from page.looks import media

SCREENS = {"desk": browser.DESK, "phone": (390, 664), "lying": (844, 390)}
LOOKS = {"light": {"prefers_color_scheme": "light"}, "dark": {"prefers_color_scheme": "dark"},
         "forced": {"forced_colors": "active", "prefers_color_scheme": "dark"}}
LARGE = [("solo", "4x4", None), ("pattern", "30x30", None), ("lightup", "20x20", "30"), ("tents", "15x15", None)]


def leave(server, tally, folder):
    """All pictures, into a folder."""
    folder = Path(folder)
    folder.mkdir(parents=True, exist_ok=True)
    with browser.opened(server.url, tally) as page:
        for game, size, seed, black in browser.GAMES:
            for screen in SCREENS:
                for look in LOOKS:
                    half_filled(page, server, (game, size, seed, black), SCREENS[screen], LOOKS[look])
                    shot(page, folder / f"{game}-{screen}-{look}.png")
        for game, size, black in LARGE:
            for screen in SCREENS:
                media(page)
                page.size(*SCREENS[screen], is_mobile=screen != "desk")
                page.open(game, browser.made(server, game, size, "4", black)["id"])
                shot(page, folder / f"{game}-{size}-{screen}.png")
        media(page)
    tally.same("pictures", len(list(folder.glob("*.png"))) >= len(SCREENS) * (4 * len(LOOKS) + len(LARGE)), True)


def half_filled(page, server, puzzle, size, look):
    """The upper half is filled in, and a hint tells what comes next."""
    game, made = puzzle[0], browser.made(server, *puzzle)
    signs, rows = browser.signs_of(game, made["grids"][0]), len(made["grids"][0])
    half = rows // 2 * (len(signs) // rows)
    page.size(*browser.DESK)
    media(page, **look)
    page.open(game, made["id"])
    browser.write(page, game, signs[:half] + ["."] * (len(signs) - half), rows)
    page.size(*size, is_mobile=size != SCREENS["desk"])
    page.hint()


def shot(page, file):
    page.script("scrollTo(0, 0)")
    page.driver.save_screenshot(str(file))
