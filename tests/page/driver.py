"""The page of the folder page/ in a real browser, as a person sees and handles it."""
import os
import shutil

try:
    from selenium import webdriver
    from selenium.common.exceptions import WebDriverException
    from selenium.webdriver.common.action_chains import ActionChains
    from selenium.webdriver.chrome.service import Service
    from selenium.webdriver.common.by import By
    from selenium.webdriver.common.keys import Keys
    from selenium.webdriver.support.ui import Select, WebDriverWait
except ImportError:
    webdriver = ActionChains = By = Keys = WebDriverException = None

WAIT = 30  # seconds of any wait


def missing():
    """What the browser part needs and this machine hasn't."""
    needed = {"chromium": shutil.which("chromium"), "chromium-driver": shutil.which("chromedriver"),
              "python3-selenium": webdriver}
    return [name for name, there in needed.items() if not there]


class Page:
    """The page in a browser."""

    def __init__(self, url, profile):
        options = webdriver.ChromeOptions()
        options.binary_location = shutil.which("chromium")
        for word in ["--headless=new", "--disable-gpu", "--disable-dev-shm-usage", f"--user-data-dir={profile}"]:
            options.add_argument(word)
        if os.geteuid() == 0:
            options.add_argument("--no-sandbox")  # which Chromium's sandbox asks of root
        options.set_capability("goog:loggingPrefs", {"browser": "ALL"})
        service = Service(shutil.which("chromedriver"), env={**os.environ, "TMPDIR": profile})
        self.driver, self.url = webdriver.Chrome(options=options, service=service), url
        self.driver.set_page_load_timeout(WAIT)
        self.driver.set_script_timeout(WAIT)

    def all(self, selector):
        return self.driver.find_elements(By.CSS_SELECTOR, selector)

    def one(self, selector):
        return self.driver.find_element(By.CSS_SELECTOR, selector)

    def text(self, selector):
        return self.one(selector).text

    def cells(self, within="#stage"):
        return self.all(f"{within} [role=gridcell]")

    def marked(self):
        """The places of the cells of the board that are marked."""
        return self.having("marked")

    def having(self, name):
        """The places of the cells of the board that have a class."""
        return self.driver.execute_script("return [...document.querySelectorAll('#stage [role=gridcell]')].flatMap("
                                          "(cell, place) => cell.classList.contains(arguments[0]) ? place : [])", name)

    def shown(self):
        """The signs that a hint shows in cells, by place."""
        return self.script("return Object.fromEntries([...document.querySelectorAll('#stage [role=gridcell]')].flatMap("
                           "(cell, place) => cell.dataset.shown ? [[place, cell.dataset.shown]] : []))")

    def click(self, selector):
        button = self.one(selector)
        self.driver.execute_script("arguments[0].scrollIntoView({ block: 'center' })", button)
        button.click()

    def choose(self, game):
        self.select("#game", game)

    def select(self, box, choice):
        Select(self.one(box)).select_by_value(choice)

    def keys(self, *pressed, held=()):
        """Keys to whatever has the focus, while some are held down."""
        chain = ActionChains(self.driver)
        for key in held:
            chain.key_down(key)
        chain.send_keys(*pressed)
        for key in held:
            chain.key_up(key)
        chain.perform()

    def signs(self, within="#stage"):
        """What a screen reader reads of each cell, without its place."""
        return self.driver.execute_script("return [...document.querySelectorAll(arguments[0] + ' [role=gridcell]')].map("
                                          "(cell) => cell.ariaLabel.split('; ')[0])", within)

    def script(self, text, *words):
        return self.driver.execute_script(text, *words)

    def until(self, what, seen):
        WebDriverWait(self.driver, WAIT, poll_frequency=0.05).until(lambda _: seen(), what)

    def put(self, selector, text):
        """As one that pastes."""
        self.driver.execute_script("arguments[0].value = arguments[1]", self.one(selector), text)

    def size(self, width, height, is_mobile=None):
        mobile = width < 600 if is_mobile is None else is_mobile
        self.driver.execute_cdp_cmd("Emulation.setDeviceMetricsOverride",
                                    {"width": width, "height": height, "deviceScaleFactor": 1, "mobile": mobile})
        self.driver.execute_cdp_cmd("Emulation.setTouchEmulationEnabled", {"enabled": mobile})  # a phone has a coarse pointer

    def open(self, game="", text="", is_fresh=True):
        """A visit; a fresh one finds nothing kept."""
        if is_fresh:
            self.leave("localStorage.clear()")
        self.driver.get("about:blank")
        self.driver.get(f"{self.url}#{game}/{text}" if text else self.url)
        self.until(f"opens {game} {text}", self.is_ready)

    def leave(self, text, *words):
        """Leaves the page, and does something to what it keeps."""
        self.driver.get(f"{self.url}icon.svg")
        self.driver.execute_script(text, *words)

    def is_ready(self):
        return self.driver.execute_script("return document.querySelectorAll('#stage [role=gridcell]').length > 0 && "
                                          "document.body.ariaBusy !== 'true' && location.hash.includes('/')")

    def until_said(self, text):
        self.until(f"says {text}", lambda: text in self.text("#answer"))

    def answer(self, button):
        """What is said after a button, which takes away what was said before."""
        self.driver.execute_script("document.getElementById('answer').textContent = ''")
        self.click(button)
        self.until(f"answers {button}", lambda: self.text("#answer"))
        return self.text("#answer")

    def hint(self):
        """Where to look, and what is told after the last press; the same twice if it is told at once."""
        told = self.presses()
        return told[0], told[-1]

    def presses(self, most=100):
        """What each press of Hint says, until the cells are told."""
        told = [self.answer("#hint")]
        while "Press Hint again" in told[-1] and len(told) < most:
            before = self.text("#answer")
            self.click("#hint")
            self.until("tells the next step", lambda before=before: self.text("#answer") != before)
            told.append(self.text("#answer"))
        return told

    def solution(self):
        """What Solve says once it was pressed again; the first press only asks."""
        told = self.answer("#solve")
        return self.answer("#solve") if "Press Solve again" in told else told
