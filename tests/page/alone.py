"""The page without a server: its folder, and the page in Chromium, with a network and without."""
import functools
import http.server
import shutil
import subprocess
import sys
import tempfile
import threading
import time
from pathlib import Path

from page import browser, helped
from page.faults import FIFTH
from page.server import RUN, TOP, WAIT

KINDS = {".js": "text/javascript", ".wasm": "application/wasm", ".webmanifest": "application/manifest+json"}
VISITS = 12
OLD, NEW = "Today’s", "This day’s"  # a button's text in two versions
CALL = """
    const [name, fields, done] = arguments, begun = performance.now();
    import(`${location.origin}/program.js`).then(({ call }) => call(name, fields))
      .then((told) => done([(performance.now() - begun) / 1000, told]));
"""
ACTIVE = """
    const [done] = arguments;
    navigator.serviceWorker.getRegistration().then((found) => done(Boolean(found?.active)));
"""


class Quiet(http.server.SimpleHTTPRequestHandler):
    """The files of a folder, as `python3 -m http.server` gives them."""

    extensions_map = {**http.server.SimpleHTTPRequestHandler.extensions_map, **KINDS}

    def log_message(self, format, *args):
        pass


class Server(http.server.ThreadingHTTPServer):
    """A browser that goes on before a file is there is no fault."""

    def handle_error(self, request, client_address):
        if not isinstance(sys.exc_info()[1], OSError):
            super().handle_error(request, client_address)


class Served:
    """The folder of page/static.py, written anew, on a free port."""

    def __init__(self, module):
        self.kept = tempfile.TemporaryDirectory()
        self.folder = Path(self.kept.name) / "page"
        written(self.folder, module)
        self.server = Server(("127.0.0.1", 0), functools.partial(Quiet, directory=str(self.folder)))
        self.url = f"http://127.0.0.1:{self.server.server_port}/"
        threading.Thread(target=self.server.serve_forever, daemon=True).start()

    def stop(self):
        self.server.shutdown()
        self.server.server_close()
        self.kept.cleanup()


def written(folder, module):
    """What page/static.py says, and its status."""
    words = [sys.executable, RUN, "page-static", folder, "--module", module]
    done = subprocess.run(words, capture_output=True, text=True, timeout=WAIT, check=False)
    return done.returncode, done.stdout + done.stderr


def try_page(server, tally, module):
    """The folder as it is written; then each game to its end, hints, and what a player meets when something isn't there."""
    try_folder(tally, module)
    served = Served(module)
    with browser.opened(served.url, tally) as page:
        browser.try_games(page, server, tally)
        helped.hints(page, server, tally)
        clock(page, tally)
        offline(page, server, tally)
        renewed(page, served, tally, module)
        copies(page, served, tally)
        half(page, served, tally)
    served.stop()
    for spoil, said in ABSENT:
        absent(tally, module, spoil, said)


def try_folder(tally, module):
    """Refusals of page/static.py, and a folder that is written twice."""
    with tempfile.TemporaryDirectory() as place:
        other = Path(place) / "other"
        other.mkdir()
        (other / "mine").write_text("mine")
        text = Path(place) / "text"
        text.write_text("no module")
        for folder, given, said in [(other, module, "isn't a page that this script wrote"),
                                    (Path(place) / "a", "/nothing", "no module"),
                                    (Path(place) / "b", text, "no WebAssembly module")]:
            status, told = written(folder, given)
            tally.same(f"static.py {said}", (status, said in told, "Traceback" in told), (2, True, False))
        tally.same("what static.py leaves alone", sorted(path.name for path in Path(place).iterdir()), ["other", "text"])
        fine = Path(place) / "page"
        tally.same("static.py", [written(fine, module)[0] for _ in range(2)], [0, 0])
        tally.same("what it leaves beside", sorted(path.name for path in Path(place).iterdir()), ["other", "page", "text"])


def clock(page, tally):
    """A call that takes too long is ended after two seconds, and the next one is answered."""
    page.open("tents", "2x2:_c,0,1,1,0")
    seconds, told = page.driver.execute_async_script(CALL, "generate", FIFTH)
    tally.same("a long call", told, {"failed": "clock"})
    tally.true(f"a long call ends in time: {seconds}", 1.9 < seconds < 4)
    told = page.driver.execute_async_script(CALL, "solve", {"game": "tents", "id": "2x2:_c,0,1,1,0"})[1]
    tally.same("the call after it", told, {"verdict": "one", "grids": [["T^", ".."]]})


def network(page, is_there):
    page.driver.execute_cdp_cmd("Network.enable", {})
    speed = -1 if is_there else 0
    page.driver.execute_cdp_cmd("Network.emulateNetworkConditions", {"offline": not is_there, "latency": 0,
                                                                     "downloadThroughput": speed, "uploadThroughput": speed})


def offline(page, server, tally):
    """After one visit the page needs no network."""
    page.open()
    page.until("keeps itself", lambda: page.driver.execute_async_script(ACTIVE))
    page.open()
    network(page, False)
    for game, size, seed, black in browser.GAMES:
        made = browser.made(server, game, size, seed, black)
        page.open(game, made["id"], is_fresh=False)
        tally.same(f"solve of {game} without a network", page.solution(), "The only solution is below.")
        tally.true(f"hint in {game} without a network", "Proved by the program" in page.hint()[1])
        browser.write(page, game, browser.signs_of(game, made["grids"][0]), len(made["grids"][0]))
        page.until_said("Correct. The puzzle is solved.")
    before = page.one("#id").get_property("value")
    page.click("#fresh")
    page.until("makes one without a network", lambda: page.one("#id").get_property("value") != before)
    network(page, True)


def renewed(page, served, tally, module):
    """Of two versions the page has the one or the other, whole, also while a host has some files of each."""
    with tempfile.TemporaryDirectory() as place:
        source, fresh = Path(place) / "source", Path(place) / "fresh"
        for name in ("page", "python"):
            shutil.copytree(TOP / name, source / name)
        table = source / "page" / "web" / "languages" / "en.js"
        table.write_text(table.read_text().replace(OLD, NEW))
        words = [sys.executable, source / "python" / "run", "page-static", fresh, "--module", module]
        subprocess.run(words, check=True, timeout=WAIT, stdout=subprocess.DEVNULL)
        # first the one file, then the other; a browser that takes its time has the new version as soon as both are there
        for name, allowed in (("service.js", {OLD}), ("languages/en.js", {OLD, NEW})):
            shutil.copyfile(fresh / name, served.folder / name)
            found = seen(page, 1)
            tally.true(f"with a new {name} at first: {found}", found <= allowed)
        # one visit finds the new version, if it is long enough for the browser, and a later one begins it
        tally.true("then", any(NEW in seen(page, 1, 1.5 + number / 2) for number in range(VISITS)))
        tally.same("from then on", seen(page, 1), {NEW})


def seen(page, visits, seconds=1.5):
    """What the button says over some visits of so many seconds."""
    found = set()
    for _ in range(visits):
        page.open(is_fresh=False)
        time.sleep(seconds)
        page.until("is there", page.is_ready)
        found.add(page.text("#today"))
    return found


def copies(page, served, tally):
    """Two copies at one origin keep their files and their puzzles apart, also what an older one kept without its folder."""
    first = page.url
    for name in ("a", "b"):
        shutil.copytree(served.folder, served.folder / name, ignore=shutil.ignore_patterns("a", "b"))
    page.driver.get(f"{first}icon.svg")
    page.script("localStorage.clear();"
                "localStorage.setItem('puzzles solo/2x2:1b4i3_2a', '1,2,' + '.,4,' + '.,'.repeat(9) + '3,2,.')")
    for name in ("a", "b"):
        page.url = f"{first}{name}/"
        page.open("solo", "2x2:1b4i3_2a", is_fresh=False)
        page.until(f"{name} keeps itself", lambda: page.driver.execute_async_script(ACTIVE))
        tally.same(f"what an older page kept, in {name}", page.signs()[1], "2")
        page.cells()[2].click()
        page.keys("3" if name == "a" else "1")
        page.open(is_fresh=False)
    network(page, False)
    for name, sign in (("a", "3"), ("b", "1")):
        page.url = f"{first}{name}/"
        page.open("solo", "2x2:1b4i3_2a", is_fresh=False)
        tally.same(f"{name} without a network, and its own work", page.signs()[2].split(",")[0], sign)
    network(page, True)
    page.url = first


def half(page, served, tally):
    """A version of which a file isn't as it should be leaves no cache behind."""
    shutil.copytree(served.folder / "a", served.folder / "c")
    (served.folder / "c" / "tree.svg").write_text("<svg/>")
    before, page.url = page.url, f"{page.url}c/"
    page.open(is_fresh=False)
    time.sleep(2)
    names = page.driver.execute_async_script("const [done] = arguments; caches.keys().then(done)")
    tally.same("caches of a half version", [name for name in names if "/c/" in name], [])
    page.url = before


def absent(tally, module, spoil, said):
    """Without a part of it the page says so in a sentence, and what was filled in stays."""
    served = Served(module)
    spoil(served.folder)
    with browser.opened(served.url, tally) as page:
        page.open(is_fresh=False)
        page.until(f"says {said}", lambda: said in page.text("#answer") + page.text("#fault"))
        page.cells()[1].click()
        page.keys("2")
        before = page.signs()
        page.until(f"says {said} again", lambda: said in page.answer("#check"))
        tally.same(f"what was filled in: {said}", (page.signs(), before[1]), (before, "2"))
        page.open(is_fresh=False)
        tally.same(f"after a reload: {said}", page.signs(), before)
    served.stop()


def without_module(folder):
    (folder / "puzzles.wasm").unlink()


def without_webassembly(folder):
    worker = folder / "worker.js"
    worker.write_text("delete self.WebAssembly;\n" + worker.read_text())
    service = folder / "service.js"
    service.write_text("")


ABSENT = [(without_module, "module can’t be loaded"), (without_webassembly, "no WebAssembly")]
