"""The core of both pages in Firefox, by its own protocol (Marionette), since Debian has no driver for it.
"""
import base64
import json
import os
import shutil
import socket
import subprocess
import tempfile
import time
from pathlib import Path

from page import alone, browser, paper

WAIT = 60  # seconds of any wait
START = 240  # seconds in which it has begun
PREFS = {"marionette.port": 0, "browser.shell.checkDefaultBrowser": False, "datareporting.policy.dataSubmissionEnabled": False,
         "app.update.disabledForTesting": True, "toolkit.telemetry.reportingpolicy.firstRun": False}


class Firefox:
    """A Firefox of its own, and the page in it."""

    def __init__(self, url, profile):
        self.url, self.number = url, 0
        lines = [f"user_pref({json.dumps(name)}, {json.dumps(value)});" for name, value in PREFS.items()]
        Path(profile, "user.js").write_text("\n".join(lines))
        words = [shutil.which("firefox-esr") or "firefox", "--headless", "--no-remote", "--marionette", "--profile", profile]
        self.child = subprocess.Popen(words, stdin=subprocess.DEVNULL, stdout=subprocess.DEVNULL, stderr=subprocess.DEVNULL,
                                      env={**os.environ, "HOME": profile, "MOZ_HEADLESS": "1"}, start_new_session=True)
        self.link, self.told = None, Path(profile, "MarionetteActivePort")

    def begin(self):
        self.link = self.connected()
        self.read()
        self.send("WebDriver:NewSession", {})
        self.send("WebDriver:SetTimeouts", {"script": WAIT * 1000, "pageLoad": WAIT * 1000, "implicit": 0})
        self.link.settimeout(2 * WAIT)

    def connected(self):
        """A connection to the port that the browser has chosen."""
        end = time.monotonic() + START
        while time.monotonic() < end:
            if self.told.is_file() and (port := self.told.read_text().strip()):
                return socket.create_connection(("127.0.0.1", int(port)), START)
            time.sleep(0.1)
        raise TimeoutError("Firefox doesn't begin")

    def read(self):
        """A message: its length in bytes, a colon, and JSON."""
        length = b""
        while (byte := self.link.recv(1)) not in (b":", b""):
            length += byte
        body = b""
        while len(body) < int(length):
            body += self.link.recv(int(length) - len(body))
        return json.loads(body)

    def send(self, name, fields):
        self.number += 1
        text = json.dumps([0, self.number, name, fields]).encode()
        self.link.sendall(b"%d:%s" % (len(text), text))
        _, _, fault, told = self.read()
        if fault:
            raise RuntimeError(f"{name}: {fault['error']}: {fault['message']}")
        return told.get("value") if isinstance(told, dict) else told

    def script(self, text, *words):
        return self.send("WebDriver:ExecuteScript", {"script": text, "args": list(words), "newSandbox": False, "sandbox": None})

    def until(self, what, text, *words):
        end = time.monotonic() + WAIT
        while time.monotonic() < end:
            if found := self.script(f"return {text}", *words):
                return found
            time.sleep(0.05)
        raise TimeoutError(what)

    def open(self, game="", text=""):
        self.send("WebDriver:Navigate", {"url": "about:blank"})
        self.send("WebDriver:Navigate", {"url": f"{self.url}#{game}/{text}" if text else self.url})
        self.until("opens", "document.querySelectorAll('#stage [role=gridcell]').length > 0 && document.body.ariaBusy !== 'true'"
                   " && location.hash.includes('/')")

    def click(self, selector, number=0, button=0):
        """A click of the mouse on the element of that number among those that are selected."""
        found = self.script("const found = document.querySelectorAll(arguments[0])[arguments[1]];"
                            "found.scrollIntoView({ block: 'center' }); return found", selector, number)
        act = [{"type": "pointerMove", "origin": found, "x": 0, "y": 0}, {"type": "pointerDown", "button": button},
               {"type": "pointerUp", "button": button}]
        mouse = {"type": "pointer", "id": "mouse", "parameters": {"pointerType": "mouse"}, "actions": act}
        self.send("WebDriver:PerformActions", {"actions": [mouse]})

    def keys(self, text):
        acts = [{"type": kind, "value": key} for key in text for kind in ("keyDown", "keyUp")]
        self.send("WebDriver:PerformActions", {"actions": [{"type": "key", "id": "keys", "actions": acts}]})

    def answer(self, selector):
        self.script("document.getElementById('answer').textContent = ''")
        self.click(selector)
        return self.until(f"answers {selector}", "document.getElementById('answer').innerText")

    def stop(self):
        if self.link:
            self.link.close()
        self.child.terminate()
        try:
            self.child.wait(WAIT)
        except subprocess.TimeoutExpired:
            self.child.kill()
            self.child.wait(WAIT)


def try_page(server, tally, module):
    """Each game on both pages: filled in to the end, a hint, a new puzzle, and a reload that loses nothing."""
    served = alone.Served(module) if module else None
    for url in [server.url, *([served.url] if served else [])]:
        with tempfile.TemporaryDirectory(ignore_cleanup_errors=True) as profile:
            page = Firefox(url, profile)
            try:
                page.begin()
                for game, size, seed, black in browser.GAMES:
                    play(page, tally, game, browser.made(server, game, size, seed, black))
            except (RuntimeError, OSError, ValueError) as fault:
                tally.same(f"Firefox at {url}", str(fault), "no fault")
            finally:
                page.stop()
    if served:
        served.stop()


def play(page, tally, game, made):
    page.open(game, made["id"])
    first = page.answer("#hint")
    tally.true(f"Firefox, {game}: where to look: {first}", first.startswith("Look"))
    tally.true(f"Firefox, {game}: a hint", "Proved by the program" in page.answer("#hint"))
    signs = browser.signs_of(game, made["grids"][0])
    empty = page.script("return [...document.querySelectorAll('#stage .cell')].map((cell) => cell.dataset.sign === '.')")
    for place, sign in enumerate(signs):
        if empty[place] and (game == "solo" or sign in "#O^"):
            page.click("#stage .cell", place)
            if game == "solo":
                page.keys(sign)
    page.until(f"{game} is solved", "document.getElementById('answer').innerText.startsWith('Correct.')")
    tally.true(f"Firefox, {game}: the end", page.script("return document.querySelector('.board').classList.contains('done')"))
    pictures(page, tally, game, signs)
    page.open(game, made["id"])
    filled = page.script("return [...document.querySelectorAll('#stage .cell')].map((cell) => cell.dataset.sign)")
    blank = [sign if sign != "." else "." for sign in signs]
    tally.same(f"Firefox, {game}: after a reload", filled, blank)
    page.click("#fresh")
    page.until(f"a new {game}", "document.getElementById('id').value !== arguments[0]", made["id"])


def pictures(page, tally, game, signs):
    """On paper the empty board has its trees, and the filled one also its tents and bulbs."""
    for is_filled in (False, True):
        page.script("document.body.classList.toggle('filled', arguments[0])", is_filled)
        pdf = base64.b64decode(page.send("WebDriver:Print", {"page": {"width": 21.0, "height": 29.7}}))
        sheets = paper.drawn(pdf)
        for sign in "T^O":
            seen = sum(paper.spots(sheet, paper.COLOURS[sign]) for sheet in sheets)
            wanted = signs.count(sign) if is_filled or sign == "T" else 0
            tally.same(f"Firefox, {game}: {sign} on paper, filled {is_filled}", seen, wanted)
    page.script("document.body.classList.remove('filled')")
