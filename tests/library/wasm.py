#!/usr/bin/env python3
"""Compares the module for browsers with the program, in Node and in browsers.

usage: tests/library/wasm.py [--puzzles N] [--in-browsers N] [--engines LIST] [--built FOLDER] PROGRAM

PROGRAM is as `rt run` leaves it: crates/puzzles/out/puzzles. The module is that of FOLDER; else `library/build.py wasm` proves
and builds it, into library/out. LIST is of node, chromium and firefox, with commas, and else all three. Each makes the calls of
`tests/library/library.py` and compares status and text with the program's: Node for N puzzles, 2,000 unless it is said, with five calls
each; a browser for N calls, 1,000 unless it is said. Each also tries: a memory that is full, a call that stops in the module, and
the calls after both; arguments that are refused; bytes that are no module. It tells the sizes, the stack and the times: those of
the processor, in all of the engine's processes, and the mean of twenty.
It needs cc, and Debian's nodejs, chromium and firefox-esr for what is asked. The status is 1 if anything differs.
"""
import argparse
import contextlib
import dataclasses
import functools
import gzip
import http.server
import json
import os
import pathlib
import queue
import random
import shutil
import subprocess
import sys
import tempfile
import threading

import library_cases as cases
import module
from puzzles._work import end
from support.bench import TOP

BUILD_SECONDS = 4 * 3600
ENGINE_SECONDS = 1800
FILES = [TOP / "tests" / "library" / "wasm_compare.js", TOP / "tests" / "library" / "wasm_page.html", TOP / "library" / "puzzles.js"]
IN_NODE = """
import { readFile } from "node:fs/promises";
import { tried } from "./wasm_compare.js";
const [bytes, given] = await Promise.all(["puzzles.wasm", "node.json"].map((file) => readFile(file)));
const spent = () => (process.cpuUsage().user + process.cpuUsage().system) / 1000;
console.log(JSON.stringify(await tried(() => bytes, spent, JSON.parse(given))));
"""
BROWSERS = {
    "chromium": ["chromium", "--headless=new", "--no-sandbox", "--disable-gpu", "--no-first-run", "--user-data-dir={}"],
    "firefox": ["firefox-esr", "--headless", "--no-remote", "--profile", "{}"],
}
TOOLS = {"node": "node", "chromium": "chromium", "firefox": "firefox-esr"}
# What each engine has to find, beside answers that don't differ.
WANTED = {"full": [5, True], "broken": [True, True, 5, True],
          "refused": [True, "refused: too long\n", "refused: no colon\n", True, True, True]}


class Handler(http.server.SimpleHTTPRequestHandler):
    """Serves the folder, and takes what the page found."""

    def __init__(self, results, browser, *more, **how):
        self.results, self.browser = results, browser
        super().__init__(*more, **how)

    def do_GET(self):
        if self.path != "/spent":
            return super().do_GET()
        told = json.dumps(spent(self.browser[0])).encode()
        self.send_response(200)
        self.send_header("Content-Length", str(len(told)))
        self.end_headers()
        return self.wfile.write(told)

    def do_POST(self):
        self.results.put(self.rfile.read(int(self.headers["Content-Length"])))
        self.send_response(204)
        self.end_headers()

    def log_message(self, *words):
        pass


def spent(session):
    """Milliseconds of the processor that the processes of a session took so far."""
    ticks = 0
    for status in pathlib.Path("/proc").glob("[0-9]*/stat"):
        with contextlib.suppress(OSError):
            fields = status.read_text().rpartition(") ")[2].split()
            ticks += int(fields[11]) + int(fields[12]) if int(fields[3]) == session else 0
    return 1000 * ticks / os.sysconf("SC_CLK_TCK")


def write_cases(all_cases, file):
    """The cases for JavaScript, whose numbers stand in texts: some are too long for its own."""
    told = [dataclasses.asdict(case) for case in all_cases]
    for case in told:
        case["options"] = {name: value if isinstance(value, bool) else str(value) for name, value in case["options"].items()}
    file.write_text(json.dumps({"cases": told, "stack": module.STACK}))


def in_node(folder):
    done = subprocess.run(["node", "--input-type=module", "-"], input=IN_NODE, cwd=folder, capture_output=True, text=True,
                          check=False, timeout=ENGINE_SECONDS)
    return json.loads(done.stdout) if done.returncode == 0 else {"fault": done.stderr.strip()[-300:]}


@contextlib.contextmanager
def served(folder):
    """A server of the folder on this machine: its address, what pages found, and room for the number of the browser."""
    results, browser = queue.Queue(), [0]
    handler = functools.partial(Handler, results, browser, directory=folder)
    with http.server.ThreadingHTTPServer(("127.0.0.1", 0), handler) as server:
        threading.Thread(target=server.serve_forever, daemon=True).start()
        yield f"http://127.0.0.1:{server.server_port}", results, browser
        server.shutdown()


def in_browser(name, folder):
    with served(folder) as (address, results, number), tempfile.TemporaryDirectory(ignore_cleanup_errors=True) as profile:
        words = [word.format(profile) for word in BROWSERS[name]]
        browser = subprocess.Popen([*words, f"{address}/wasm_page.html"], stdin=subprocess.DEVNULL, stdout=subprocess.DEVNULL,
                                   stderr=subprocess.DEVNULL, start_new_session=True)
        number[0] = browser.pid
        try:
            return json.loads(results.get(timeout=ENGINE_SECONDS))
        except queue.Empty:
            return {"fault": f"no result within {ENGINE_SECONDS} seconds"}
        finally:
            end(browser)


def tell(name, found):
    """What an engine found, and how much of it is not as it has to be."""
    if "fault" in found:
        print(f"{name}: DIFFERS: {found['fault']}", flush=True)
        return 1
    faults = [*found["differing"], *(f"{part}: {found[part]}" for part, wanted in WANTED.items() if found[part] != wanted)]
    for fault in faults[:20]:
        print(f"{name}: DIFFERS: {fault}")
    print(f"{name}: {found['count']:,} answers, {len(found['differing']):,} differ; start {found['start']:.1f} ms; "
          f"a solve {found['solve']:.0f} µs; stack {found['stack']:,} bytes; memory {found['memory']:,} bytes; "
          f"{len(faults)} faults", flush=True)
    return len(faults)


def wide(room):
    """How many products and shifts of 128 bits are not the compiler's."""
    made = room / "wide"
    subprocess.run(["cc", "-O2", "-o", made, TOP / "tests" / "library" / "wasm_wide.c"], check=True, timeout=ENGINE_SECONDS)
    done = subprocess.run([made], capture_output=True, text=True, check=True, timeout=ENGINE_SECONDS)
    print(f"numbers of 128 bits: {int(done.stdout)} differ", flush=True)
    return int(done.stdout)


def example(program, file):
    """How many answers of the example in Node are not the program's."""
    faults = 0
    for game, text in cases.OF_EXAMPLES:
        wanted = cases.ask(program, cases.Case("solve", game, text))
        done = subprocess.run(["node", TOP / "examples" / "library" / "solve.mjs", f"--module={file}", game, text], text=True,
                              capture_output=True, check=False, timeout=ENGINE_SECONDS)
        if (done.returncode, done.stdout) != (wanted.status, wanted.answer):
            faults += 1
            print(f"example: DIFFERS: {game} {text[:40]}: {done.returncode} {done.stdout[:40]} {done.stderr[-200:]}", flush=True)
    print(f"example: {len(cases.OF_EXAMPLES)} answers, {faults} differ", flush=True)
    return faults


def compare(asked, room, folder):
    file = folder / "puzzles.wasm"
    print(f"{file.name}: {file.stat().st_size:,} bytes, {len(gzip.compress(file.read_bytes(), 9)):,} by gzip -9", flush=True)
    for each in [file, *FILES]:
        shutil.copy(each, room)
    (room / "package.json").write_text('{ "type": "module" }')
    all_cases = [case for case in cases.all_cases(asked.program, asked.puzzles) if case.game in cases.GAMES]
    write_cases(all_cases, room / "node.json")
    write_cases(random.Random(1).sample(all_cases, min(asked.in_browsers, len(all_cases))), room / "cases.json")
    engines = {"node": in_node, **{name: functools.partial(in_browser, name) for name in BROWSERS}}
    faults = wide(room) + (example(asked.program, file) if "node" in asked.engines else 0)
    return faults + sum(tell(name, engines[name](room)) for name in asked.engines)


def main():
    form = argparse.ArgumentParser(description=__doc__, formatter_class=argparse.RawDescriptionHelpFormatter)
    form.add_argument("--puzzles", metavar="N", type=int, default=2000)
    form.add_argument("--in-browsers", metavar="N", type=int, default=1000)
    form.add_argument("--engines", metavar="LIST", type=lambda text: text.split(","), default=list(TOOLS))
    form.add_argument("--built", metavar="FOLDER", type=pathlib.Path)
    form.add_argument("program", metavar="PROGRAM", type=os.path.abspath)
    asked = form.parse_args()
    if not os.access(asked.program, os.X_OK) or min(asked.puzzles, asked.in_browsers) < 1 or set(asked.engines) - set(TOOLS):
        form.error("a program that can be run, a puzzle and a call at least, and engines of " + ", ".join(TOOLS))
    missing = [tool for tool in ("cc", *(TOOLS[name] for name in asked.engines)) if not shutil.which(tool)]
    if missing:
        form.error(f"needed and not found: {', '.join(missing)}")
    folder = (asked.built or TOP / "library" / "out").absolute()
    try:
        if not asked.built:
            subprocess.run([TOP / "library" / "build.py", "wasm"], check=True, timeout=BUILD_SECONDS)
        with tempfile.TemporaryDirectory(prefix="puzzles-wasm-") as room:
            faults = compare(asked, pathlib.Path(room), folder)
    except (OSError, ValueError, subprocess.SubprocessError) as fault:
        sys.exit(f"wasm.py: {fault}")
    except KeyboardInterrupt:
        sys.exit(130)
    print(f"{faults} faults")
    return 1 if faults else 0


if __name__ == "__main__":
    sys.exit(main())
