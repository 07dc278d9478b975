"""The folder for npm: installed offline by its path, used by its names in Node, with types, and with calls that a clock ends."""
import functools
import http.server
import json
import re
import subprocess
import threading
import time

import pytest

from page.driver import Page
from support.bench import SECONDS, TOP

USE = """
import { readFile } from "node:fs/promises";
import { Puzzles } from "puzzles-module";
import { Ended } from "puzzles-module/ended";

const puzzles = await Puzzles.load(await readFile("node_modules/puzzles-module/puzzles.wasm"));
const said = [puzzles.solve("pattern", "5x1:1/1//1/1/2.2", { budget: 20_000 }), puzzles.solve("solo", "2x2:p", { bugdet: 1 }),
  puzzles.grade("solo", "2x2:p", "trace"), puzzles.grade("solo", "2x2:1b4i3_2a", null), puzzles.solve("chess", "2x2:p")];
const ended = new Ended({ seconds: 1 }), begun = performance.now();
said.push(await ended.generate("solo", "5x6", 1, { budget: 10 ** 9 }));
const seconds = (performance.now() - begun) / 1000, more = new Ended();
said.push(...await Promise.all([more.solve("tents", "2x2:_c,0,1,1,0"), more.check("tents", "2x2:_c,0,1,1,0", "T^\\n..\\n"),
  more.solve("tents", "2x2:p", { seed: 1 })]));
console.log(JSON.stringify([said, seconds]));
"""
WANTED = [[0, "one\n##.##\n"], [2, "refused: words\n"], [2, "refused: words\n"], [0, "singles\n"], [2, "refused: words\n"], None,
          [0, "one\nT^\n..\n"], [0, "correct\n"], [2, "refused: words\n"]]
CLOSED = """
import { Ended } from "puzzles-module/ended";

const said = [], puzzle = ["pattern", "5x1:1/1//1/1/2.2"], endless = ["solo", "5x6", 1, { budget: 10 ** 9 }];
const clocks = () => process.getActiveResourcesInfo().filter((name) => name === "Timeout").length;
for (const options of [{ second: 2 }, { seconds: 0 }, { seconds: NaN }, { seconds: "2" }, { seconds: null }]) {
  try { new Ended(options); } catch ({ name, message }) { said.push(`${name}: ${message}`); }
}
for (const seconds of [Infinity, 10 ** 9, undefined]) said.push((await new Ended({ seconds }).solve(...puzzle)).text);
const ended = new Ended({ seconds: 600 });
said.push((await ended.solve("pattern", () => 1)).text, clocks());
const waiting = Promise.all([ended.generate(...endless), ended.solve(...puzzle)]);
await ended.solve; // the first one has begun, or waits for its worker
ended.close();
said.push(...await waiting, clocks(), (await ended.solve(...puzzle)).text);
const late = ended.generate(...endless);
setTimeout(() => ended.close(), 1000);
said.push(await late, (await ended.check(...puzzle, "##.##\\n")).text, clocks());
console.log(JSON.stringify(said));
"""
OF_CLOSED = ["TypeError: no option second",
             *(f"TypeError: seconds: {word} is no number over 0" for word in ("0", "NaN", "2", "null")),
             *["one\n##.##\n"] * 3, "refused: words\n", 0, None, None, 0, "one\n##.##\n", None, "correct\n", 0]
PAGE = """<!DOCTYPE html><title>puzzles</title>
<meta http-equiv="Content-Security-Policy" content="default-src 'self'; script-src 'self' 'unsafe-inline' {policy}">
<script type="importmap">{{ "imports": {{
  "puzzles-module": "./node_modules/puzzles-module/puzzles.js",
  "puzzles-module/ended": "./node_modules/puzzles-module/ended.js" }} }}</script>
<script type="module">
import {{ Puzzles }} from "puzzles-module";
import {{ Ended }} from "puzzles-module/ended";
const told = async (act) => {{ try {{ return await act(); }} catch ({{ message }}) {{ return message; }} }};
const puzzle = ["pattern", "5x1:1/1//1/1/2.2"], ended = new Ended({{ seconds: 600 }});
window.said = await Promise.all([
  told(async () => (await Puzzles.load(fetch("node_modules/puzzles-module/puzzles.wasm"))).solve(...puzzle).text),
  told(async () => (await ended.solve(...puzzle)).text)]);
const late = ended.generate("solo", "5x6", 1, {{ budget: 10 ** 9 }}).then(String, ({{ message }}) => message);
setTimeout(() => ended.close(), 500);
window.said.push(await late);
window.isDone = true;
</script>
"""
TYPED = """
import { Puzzles, type Answer } from "puzzles-module";
import { Ended } from "puzzles-module/ended";

export async function typed(): Promise<string> {
  const puzzles = await Puzzles.load(fetch("puzzles.wasm"));
  const answer: Answer = puzzles.generate("pattern", "5x5", 2n ** 64n - 1n, { budget: "0", black: 50 });
  // @ts-expect-error an option that there isn't
  puzzles.solve("pattern", "5x1:1/1//1/1/2.2", { bugdet: 1 });
  // @ts-expect-error no game
  puzzles.solve("chess", "2x2:p");
  const late: Answer | undefined = await new Ended({ seconds: 2 }).grade("solo", "2x2:p", { trace: true });
  return answer.text + (late?.text ?? "");
}
"""


@pytest.fixture(scope="module")
def installed(module, tmp_path_factory):
    """A project that has the folder as its one package."""
    folder = tmp_path_factory.mktemp("npm")
    made, project = folder / "made", folder / "project"
    project.mkdir()
    subprocess.run([TOP / "library" / "npm_folder.py", module, made], check=True, timeout=SECONDS)
    (project / "package.json").write_text('{ "type": "module", "private": true }')
    words = ["npm", "install", "--offline", "--no-audit", "--no-fund", made]
    done = subprocess.run(words, cwd=project, capture_output=True, text=True, check=False, timeout=SECONDS)
    assert done.returncode == 0, done.stderr
    return project


@pytest.mark.needs("node", "npm")
def test_used(installed):
    """a page's script finds the module by name; a misspelt option is refused; a call that takes too long is ended, and the next
    one is answered"""
    done = subprocess.run(["node", "--input-type=module", "-"], input=USE, cwd=installed, capture_output=True, text=True,
                          check=False, timeout=SECONDS)
    assert done.returncode == 0, done.stderr
    said, seconds = json.loads(done.stdout)
    assert [one and [one["status"], one["text"]] for one in said] == WANTED, f"{said}"
    assert seconds >= 0.9, f"ended after {seconds} s"
    about = json.loads((installed / "node_modules" / "puzzles-module" / "package.json").read_text())
    assert about["version"] == re.search(r"^## (\d+\.\d+\.\d+)", (TOP / "CHANGELOG.md").read_text(), re.M)[1]
    assert all((installed / "node_modules" / "puzzles-module" / name).is_file() for name in about["files"]), "a file is missing"


@pytest.mark.needs("node", "npm")
def test_closed(installed):
    """what is no clock is told; one may be as long as can be; calls that wait end with their worker, and no clock is left"""
    done = subprocess.run(["node", "--input-type=module", "-"], input=CLOSED, cwd=installed, capture_output=True, text=True,
                          check=False, timeout=SECONDS)
    assert done.returncode == 0, done.stderr
    assert json.loads(done.stdout) == OF_CLOSED, done.stdout
    assert not done.stderr, done.stderr


@pytest.mark.slow
@pytest.mark.needs("npm", "chromium", "chromedriver", "import:selenium")
@pytest.mark.parametrize("policy", ["'wasm-unsafe-eval'", ""], ids=["allowed", "refused"])
def test_browser(installed, tmp_path, policy):
    """a page has both by name, of files that a host serves; with a policy of the page that lets no module in, the page's
    own call says so, and that of the worker, which has the policy of its own file, is answered"""
    (installed / "page.html").write_text(PAGE.format(policy=policy))
    handler = functools.partial(http.server.SimpleHTTPRequestHandler, directory=installed)
    with http.server.ThreadingHTTPServer(("127.0.0.1", 0), handler) as server:
        threading.Thread(target=server.serve_forever, daemon=True).start()
        page = Page(f"http://127.0.0.1:{server.server_port}/", str(tmp_path))
        try:
            page.driver.set_page_load_timeout(SECONDS)
            page.driver.get(f"{page.url}page.html")
            end = time.monotonic() + SECONDS
            while time.monotonic() < end and not page.script("return window.isDone"):
                time.sleep(0.1)
            solved, ended, late = page.script("return window.said")
        finally:
            page.driver.quit()
            server.shutdown()
    assert (ended, late) == ("one\n##.##\n", "undefined")
    assert solved == "one\n##.##\n" if policy else solved.startswith("puzzles.wasm can't be loaded: "), solved


@pytest.mark.needs("npm", "tsc")
def test_types(installed):
    """TypeScript checks a caller, and finds what is misspelt"""
    (installed / "typed.ts").write_text(TYPED)
    how = {"strict": True, "noEmit": True, "target": "es2022", "module": "node16", "moduleResolution": "node16", "types": []}
    (installed / "tsconfig.json").write_text(json.dumps({"compilerOptions": how, "files": ["typed.ts"]}))
    words = ["tsc", "--project", "tsconfig.json"]
    done = subprocess.run(words, cwd=installed, capture_output=True, text=True, check=False, timeout=SECONDS)
    assert done.returncode == 0, done.stdout
