"""The page on paper: the pictures in what Chromium prints are counted, so that no tree, tent or bulb is lost there."""
import types

import pytest

try:
    from urllib3.exceptions import HTTPError
except ImportError:  # then there is no selenium either
    HTTPError = OSError

from page import browser, paper
from page.driver import WebDriverException
from page.server import Tally

pytestmark = pytest.mark.needs("chromium", "chromedriver", "import:selenium", "pdftoppm")
TRIES, SECONDS = 3, 600  # of a browser that ends by itself or doesn't begin, and of its waits
BROKEN = "the browser at"


@pytest.mark.parametrize("game, size, more", [("tents", "8x8", {}), ("lightup", "7x7", {"black": "25"})])
def test_pictures(server, game, size, more):
    made = server.made(game, size, "4", **more)
    for _ in range(TRIES):
        tally = Tally()
        try:
            with browser.opened(server.url, tally) as page:
                page.driver.set_page_load_timeout(SECONDS)
                page.driver.set_script_timeout(SECONDS)
                paper.counted(page, tally, game, made)
        except (WebDriverException, HTTPError, OSError) as fault:
            tally.faults.append(f"{BROKEN} its beginning or end: {fault}")
        if not any(fault.startswith(BROKEN) for fault in tally.faults):
            assert not tally.faults, "\n".join(tally.faults)
            return
    pytest.skip("no chromium that stays up")


def test_a_browser_that_does_not_begin(monkeypatch):
    class Broken:
        driver = types.SimpleNamespace(quit=lambda: None)

        def __init__(self, url, profile):
            pass

        def size(self, *sides):
            raise WebDriverException("gone")

    monkeypatch.setattr(browser, "Page", Broken)
    with pytest.raises(WebDriverException), browser.opened("http://127.0.0.1", Tally()):
        pass
