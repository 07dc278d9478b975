"""The server of the page over programs that don't do as they should, and under loads that are too much for it."""
import concurrent.futures
import contextlib
import shutil
import socket
import subprocess
import sys
import time
from pathlib import Path

from page.server import PATIENT, RUN, WAIT, Server

EXAMPLE = "case \"$*\" in *5x1:1/1//1/1/2.2) printf 'one\\n##.##\\n'; exit 0 ;; esac\n"  # what is asked at the start
GOOD = {"game": "pattern", "id": "1x1:/"}
BROKEN = [  # a shell script, and what comes of each call
    ("echo fine", "program"),  # no known word
    ("exit 5", "program"),
    ("exit 0", "program"),
    ("echo one; kill -9 $$", "program"),
    ("printf one", "program"),  # cut short
    ("printf 'one\\n\\377\\n'", "program"),  # no text
    ("exec yes one", "program"),  # without end
    ("sleep 600 & sleep 600", "clock"),
    ("trap '' TERM HUP INT; while :; do :; done", "clock"),
]
CALLS = [("solve", GOOD), ("grade", GOOD), ("check", {**GOOD, "grid": "."}),
         ("generate", {"game": "pattern", "size": "1x1", "seed": "1"})]
FIFTH = {"game": "solo", "size": "5x5", "seed": "987654321"}  # by a search it takes longer than the clock
SLOTS, SHARE, CLIENTS, POSTS = 8, 3, 40, 600
SLOW = 20  # seconds for an answer: calls that take their whole time are beside one another, on a busy machine too
FILES, SILENT, SECONDS = 128, 180, 3
MEMORY = 200 << 10  # KiB of the server at its most


def script(folder, body):
    path = Path(folder) / "puzzles"
    path.write_text(f"#!/bin/sh\n{EXAMPLE}{body}\n")
    path.chmod(0o755)
    return str(path)


def running(word):
    """The processes that have a word in their command line."""
    found = []
    for line in Path("/proc").glob("[0-9]*/cmdline"):
        with contextlib.suppress(OSError):
            if word.encode() in line.read_bytes():
                found.append(int(line.parent.name))
    return found


def left(word):
    """The processes that still have a word in their command line after a while: a busy machine ends them late."""
    until(lambda: not running(word))
    return running(word)


def gone(children):
    """Whether processes are gone after a while."""
    return until(lambda: not any(Path(f"/proc/{child}").exists() for child in children))


def until(is_so):
    """Whether something is so after a while."""
    end = time.monotonic() + WAIT
    while not is_so() and time.monotonic() < end:
        time.sleep(0.05)
    return is_so()


def linked(folder, tally, program):
    """A server that is begun through a link finds its files."""
    link = Path(folder, "link.py")
    link.symlink_to(RUN)
    server = Server(program, script=link)
    got = server.send(b"GET / HTTP/1.1\r\nHost: localhost\r\n\r\n", False)
    tally.true("the page through a link", b"<title>puzzles</title>" in got)
    server.stop()


def strangers(folder, tally):
    """Programs that aren't `puzzles` are refused at the start."""
    Path(folder, "liar").write_text("#!/bin/sh\necho one\n")
    Path(folder, "liar").chmod(0o755)
    for stranger in ("/bin/ls", f"{folder}/liar", f"{folder}/nothing"):
        done = subprocess.run([sys.executable, RUN, "page", "--port", "0", stranger], capture_output=True, text=True,
                              stdin=subprocess.DEVNULL, timeout=WAIT, check=False)
        tally.same(f"over {stranger}", (done.returncode, done.stdout, "Traceback" in done.stderr, stranger in done.stderr),
                   (1, "", False, True))


def broken(folder, tally, body, wanted):
    """No call tells anything but that there is no answer. And the server ends at once, whatever its processes do."""
    server = Server(script(folder, body), clocks=None if wanted == "clock" else PATIENT)
    with concurrent.futures.ThreadPoolExecutor(len(CALLS)) as pool:
        for (call, _), reply in zip(CALLS, pool.map(lambda asked: server.ask(*asked), CALLS)):
            tally.same(f"{call} over `{body}`", (reply[0], reply[2]), (503, {"failed": wanted}))
    status = Path(f"/proc/{server.child.pid}/status").read_text()
    tally.true(f"memory over `{body}`", int(status.partition("VmHWM:")[2].split()[0]) < MEMORY)
    server.stop()
    server = Server(script(folder, body), clocks=PATIENT)
    with concurrent.futures.ThreadPoolExecutor(len(CALLS)) as pool:
        asked = [pool.submit(server.ask, *call) for call in CALLS]
        until(lambda: len(server.children()) == len(CALLS) or all(reply.done() for reply in asked))
        tally.same(f"end over `{body}`, before the clock of any call", server.stop(), 0)
        for reply in asked:
            reply.exception()  # waits; some got no reply
    tally.same(f"what `{body}` leaves", left(f"{folder}/puzzles"), [])


def turns(folder, tally):
    """While all turns are taken a call waits for half a second, and is then told so."""
    server = Server(script(folder, "sleep 600"), clocks=(SLOW, 0.5))
    with concurrent.futures.ThreadPoolExecutor(SLOTS) as pool:
        slow = [pool.submit(server.ask, "grade", GOOD) for _ in range(SLOTS)]
        until(lambda: len(server.children()) == SLOTS)
        begun = time.monotonic()
        status, headers, told = server.ask("grade", GOOD)
        waited = time.monotonic() - begun
        tally.same("a call too many", (status, told, headers["Retry-After"]), (503, {"failed": "busy"}, "2"))
        tally.true("it waits for its turn", 0.4 < waited)
        tally.same("the calls before it", [reply.result()[2] for reply in slow], [{"failed": "clock"}] * SLOTS)
    server.stop()


def shares(folder, tally):
    """A visitor whom a server in front names has a share of the turns, so that another one is answered at once."""
    server = Server(script(folder, "case \"$*\" in *2x2*) sleep 600 ;; esac; printf 'lines\\n'"), clocks=(SLOW, SLOW / 4))
    slow = {"game": "pattern", "id": "2x2:///"}
    with concurrent.futures.ThreadPoolExecutor(SLOTS) as pool:
        greedy = [pool.submit(server.ask, "grade", slow, None, "192.0.2.1") for _ in range(SLOTS)]
        until(lambda: len(server.children()) == SHARE)
        told = [server.ask("grade", GOOD, None, f"192.0.2.1, 192.0.2.{k}")[2] for k in range(2, 6)]
        tally.same("visitors beside a greedy one", told, [{"verdict": "one", "grade": "lines"}] * 4)
        slowest = [reply for reply in greedy if not reply.done() or reply.result()[2] == {"failed": "clock"}]
        tally.same("they don't wait for it", [reply.done() for reply in slowest if reply.done()], [])
        failed = sorted(reply.result()[2]["failed"] for reply in greedy)
        tally.same("the calls of the greedy one", failed, ["busy"] * (SLOTS - SHARE) + ["clock"] * SHARE)
    server.stop()


def wrapped(folder, tally, program):
    """The clock reaches what a wrapper began."""
    server = Server(script(folder, f"ulimit -v 2000000\n{program} \"$@\"\nexit $?"))
    for _ in range(2):
        tally.same("generate of Solo 5x5 over a wrapper", server.ask("generate", FIFTH)[::2], (503, {"failed": "clock"}))
    tally.same("what the wrapper began", left(FIFTH["seed"]), [])
    server.stop()
    server = Server(program)
    tally.same("generate of Solo 5x5", server.ask("generate", FIFTH)[::2], (503, {"failed": "clock"}))
    tally.same("what it began", left(FIFTH["seed"]), [])
    server.stop()
    server = Server(program, clocks=PATIENT)
    status, _, told = server.ask("generate", {**FIFTH, "budget": "0"})
    tally.same("generate of Solo 5x5 without guesses", (status, told.get("verdict")), (200, "made"))
    server.stop()


def replaced(folder, tally, program):
    """Another program in its place is taken by each call, also by a kept worker."""
    path = Path(script(folder, f"exec {program} \"$@\""))
    server = Server(str(path), clocks=PATIENT)
    tally.same("solve before", server.ask("solve", GOOD)[2], {"verdict": "one", "grids": [["."]]})
    path.rename(Path(folder) / "old")
    tally.same("solve without a program", server.ask("solve", GOOD)[::2], (503, {"failed": "program"}))
    script(folder, "while read id; do read empty; printf 'none\\nrefused: no colon\\n'; done")
    tally.same("solve after", server.ask("solve", GOOD)[2], {"verdict": "none", "grids": []})
    path.unlink()
    shutil.move(Path(folder) / "old", path)
    tally.same("solve with the old one", server.ask("solve", GOOD)[2], {"verdict": "one", "grids": [["."]]})
    server.stop()


def many(program, tally):
    """Many short calls at a time wait for their turn, and all are answered."""
    server = Server(program, clocks=PATIENT)
    with concurrent.futures.ThreadPoolExecutor(CLIENTS) as pool:
        told = list(pool.map(lambda _: server.ask("solve", GOOD)[2], range(POSTS)))
    others = [reply for reply in told if reply != {"verdict": "one", "grids": [["."]]}]
    tally.same(f"{POSTS} calls of {CLIENTS} clients", others, [])
    server.stop()


def silent(program, tally):
    """More connections that say nothing than the server may have files: they cost nothing, and others are answered."""
    server = Server(program, before=["sh", "-c", f"ulimit -n {FILES}; exec \"$@\"", "sh"], clocks=PATIENT)

    def spent():
        times = Path(f"/proc/{server.child.pid}/stat").read_text().rpartition(") ")[2].split()[11:13]
        return sum(map(int, times)) / 100

    with contextlib.ExitStack() as links:
        for _ in range(SILENT):
            links.enter_context(socket.create_connection(("127.0.0.1", server.port), WAIT))
        before = spent()
        time.sleep(SECONDS)
        tally.true("silent connections cost nothing", spent() - before < SECONDS / 4)
        for call, wanted in [("solve", {"verdict": "one", "grids": [["."]]}), ("grade", {"verdict": "one", "grade": "lines"})]:
            tally.same(f"{call} beside them", server.ask(call, GOOD)[2], wanted)
    server.stop()
