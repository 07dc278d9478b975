"""`puzzles.js` in Node: how it takes a response, what it does after a large answer, and how often it asks."""
import json
import subprocess

import pytest

from support.bench import SECONDS, TOP

pytestmark = pytest.mark.needs("node")
HEAD = """
import { readFileSync } from "node:fs";
await new Response("").text(); // with it Node compiles a module of its own
const { Puzzles } = await import(process.argv[2]), bytes = readFileSync(process.argv[3]);
const count = { instances: 0, calls: 0, streams: 0, compilations: 0 }, Real = WebAssembly.Instance;
WebAssembly.Instance = function Instance(module) {
  count.instances += 1;
  const { exports } = new Real(module), solve = (...words) => (count.calls += 1, exports.puzzles_solve(...words));
  return { exports: { ...exports, puzzles_solve: solve } };
};
for (const [name, kind] of [["compileStreaming", "streams"], ["compile", "compilations"]]) {
  const real = WebAssembly[name];
  WebAssembly[name] = (source) => (count[kind] += 1, real.call(WebAssembly, source));
}
const TYPE = { headers: { "Content-Type": "application/wasm" } }, PUZZLE = ["pattern", "5x1:1/1//1/1/2.2"];
const sentence = (act) => act().then(() => "none", ({ message }) => message);
"""
LOADED = """
const said = [];
const load = async (source) => (await Puzzles.load(source)).solve(...PUZZLE).text;
said.push(await load(bytes), await load(new Response(bytes)), count.streams, count.compilations);
said.push(await load(new Response(bytes, TYPE)), await load(Promise.resolve(new Response(bytes, TYPE))), count.streams);
said.push(await sentence(() => Puzzles.load(new Response("", { ...TYPE, status: 404 }))));
said.push((await sentence(() => Puzzles.load(new Response("<html>", TYPE)))).split(":")[0]);
WebAssembly.compileStreaming = undefined;
said.push(await load(new Response(bytes, TYPE)));
globalThis.Response = undefined;
said.push(await load(bytes));
console.log(JSON.stringify(said));
"""
ANSWER = "one\n##.##\n"
OF_LOADED = [ANSWER, ANSWER, 0, 2, ANSWER, ANSWER, 2, "puzzles.wasm can't be loaded:  has status 404",
             "puzzles.wasm can't be loaded", ANSWER, ANSWER]
AFTER = """
const puzzles = await Puzzles.load(bytes), lines = "\\n".repeat(2_000_000);
const long = puzzles.solveEach("solo", lines).text, before = count.instances;
for (let turn = 0; turn < 50; turn += 1) puzzles.solve(...PUZZLE);
const calls = count.calls, several = puzzles.solve("pattern", `120x120:1/1${"/".repeat(118)}/1/1${"/".repeat(118)}`);
console.log(JSON.stringify([long.length, count.instances - before, calls, several.text.length, count.calls - calls]));
"""
TRACES = """
const puzzles = await Puzzles.load(bytes), grade = (trace) => puzzles.grade(...PUZZLE, { trace }).text.length > "lines\\n".length;
console.log(JSON.stringify([[true, 1, 2, 256, -1, "yes"].map(grade), [false, 0, null, undefined, ""].map(grade)]));
"""


def told(script, module):
    words = ["node", "--input-type=module", "-", TOP / "library" / "puzzles.js", module]
    done = subprocess.run(words, input=HEAD + script, capture_output=True, text=True, check=False, timeout=SECONDS)
    assert done.returncode == 0, done.stderr
    return json.loads(done.stdout)


def test_loaded(module):
    """a response of the module's type is compiled as it comes, any other is read first; without streams or responses there are
    bytes; what isn't there is told"""
    assert told(LOADED, module) == OF_LOADED


def test_after_a_large_answer(module):
    """36 MB of answers make no later call begin a new instance, and the longest answer is asked for once"""
    assert told(AFTER, module) == [36_000_000, 0, 50, 29_049, 1]


def test_traces(module):
    """whatever is true asks for a trace, as in C any number but 0"""
    assert told(TRACES, module) == [[True] * 6, [False] * 5]
