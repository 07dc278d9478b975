"""Both forms of the page in browsers, as a person sees and handles them."""
import pytest

from page import alone, browser, firefox, pictures

pytestmark = pytest.mark.slow
CHROMIUM = pytest.mark.needs("chromium", "chromedriver", "import:selenium")


@CHROMIUM
def test_served(prompt_server, tally):
    browser.try_page(prompt_server, tally)


@CHROMIUM
def test_pictures(prompt_server, tally, request):
    """All pictures, into the folder of --pictures."""
    folder = request.config.getoption("--pictures") or pytest.skip("no --pictures FOLDER")
    pictures.leave(prompt_server, tally, folder)


@CHROMIUM
def test_alone(prompt_server, tally, module):
    alone.try_page(prompt_server, tally, module)


@pytest.mark.needs("firefox-esr")
def test_firefox(prompt_server, tally, module):
    firefox.try_page(prompt_server, tally, module)
