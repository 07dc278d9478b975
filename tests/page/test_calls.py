"""The page's server: each call and each refusal, requests that no browser sends, its files, and many calls at a time."""
import concurrent.futures
import contextlib
import json
import os
import signal
import socket
import time

import pytest

from page.asked import CHECK, GENERATE, GRADE, HOST, RAW, REFUSED, REFUSED_MORE, SOLO, SOLVE
from page.server import WAIT, WEB

CLIENTS, CALLS = 8, 1000
WORKERS = min(4, os.cpu_count())  # of each game
FILES = ["", *sorted(str(path.relative_to(WEB)) for path in WEB.rglob("*.*"))]
GOOD = {"game": "pattern", "id": "1x1:/"}
OF_EACH_GAME = [("solo", SOLO), ("pattern", "1x1:/"), ("lightup", "2x2:2c"), ("tents", "2x2:_c,0,1,1,0")]


def told(call, asked, status, parts):
    return pytest.param(call, asked, status, parts, id=f"{call} {' '.join(map(str, asked.values()))}"[:70].replace("\n", "/"))


def refused_by(why):
    """The status: what the program refuses is an answer, and what the server itself refuses isn't one."""
    return 400 if why.startswith("field") else 200


def tables():
    for game, text, verdict, grids in SOLVE:
        yield told("solve", {"game": game, "id": text}, 200, {"verdict": verdict, "grids": grids})
    for game, text, grid, fault in CHECK:
        yield told("check", {"game": game, "id": text, "grid": grid}, 200,
                   {"verdict": "wrong", "fault": fault} if fault else {"verdict": "correct"})
    for game, text, verdict, grade in GRADE:
        yield told("grade", {"game": game, "id": text}, 200, {"verdict": verdict, **({"grade": grade} if grade else {})})
    for game, size, seed, black, text, grid in GENERATE:
        made = {"verdict": "made", "id": text, "grids": [grid], "seed": seed}
        yield told("generate", {"game": game, "size": size, "seed": seed, **({"black": black} if black else {})}, 200,
                   made if text else {"verdict": "exhausted", "grids": []})
    for game, text, why in REFUSED:
        for call, more in [("solve", {}), ("check", {"grid": ""}), ("grade", {})]:
            yield told(call, {"game": game, "id": text, **more}, refused_by(why), {"refused": why})
    for call, asked, why in REFUSED_MORE:
        yield told(call, asked, refused_by(why), {"refused": why})


@pytest.mark.parametrize("call, asked, status, parts", tables())
def test_call(server, call, asked, status, parts):
    got, headers, found = server.ask(call, asked)
    assert (got, found) == (status, parts)
    policy = headers["Content-Security-Policy"] or ""
    assert policy.startswith("default-src 'none'; script-src 'self'; ") and "unsafe" not in policy
    assert headers["X-Content-Type-Options"] == "nosniff"


@pytest.mark.parametrize("sent, closing, status, why", RAW, ids=[f"{k}" for k in range(len(RAW))])
def test_raw(server, sent, closing, status, why):
    got = server.send(sent, closing)
    head, _, body = got.partition(b"\r\n\r\n")
    assert (head.split(b" ")[1:2], body) == ([str(status).encode()], json.dumps({"refused": why}).encode())
    assert b"canary" not in got.lower(), "some of its own text"


@pytest.mark.parametrize("name", FILES)
def test_file(server, name):
    """Each file whole, again by its tag, and its head."""
    whole, path = (WEB / (name or "index.html")).read_bytes(), name.encode()
    head, _, body = server.send(b"GET /%s HTTP/1.1\r\n%s\r\n" % (path, HOST), False).partition(b"\r\n\r\n")
    assert b" 200 " in head and body == whole
    tag = head.partition(b"ETag: ")[2].partition(b"\r\n")[0]
    again = b"GET /%s HTTP/1.1\r\n%sIf-None-Match: %s\r\n\r\n" % (path, HOST, tag)
    head, _, body = server.send(again, False).partition(b"\r\n\r\n")
    assert b" 304 " in head and not body
    head, _, body = server.send(b"HEAD /%s HTTP/1.1\r\n%s\r\n" % (path, HOST), False).partition(b"\r\n\r\n")
    assert b" 200 " in head and b"Content-Length: %d" % len(whole) in head and not body


@pytest.mark.parametrize("host", ["localhost", "LOCALHOST:{port}", "127.0.0.1:{port}", "puzzles.example"])
def test_host(server, host):
    assert server.ask("solve", GOOD, host.format(port=server.port))[0] == 200


def test_many(server):
    """Calls beside one another, each with its right reply."""
    _, _, made = server.ask("generate", {"game": "solo", "size": "3x3", "seed": "7"})
    calls = [("solve", {"game": "solo", "id": made["id"]}), ("grade", {"game": "solo", "id": made["id"]}),
             ("check", {"game": "tents", "id": "2x2:_c,0,1,1,0", "grid": "T^\n..\n"}),
             ("generate", {"game": "tents", "size": "8x8", "seed": "7"}),
             ("generate", {"game": "solo", "size": "3x3", "seed": "7"})]
    wanted = [server.ask(*call)[::2] for call in calls]
    assert wanted[0] == (200, {"verdict": "one", "grids": made["grids"]}) and wanted[2] == (200, {"verdict": "correct"})
    with concurrent.futures.ThreadPoolExecutor(CLIENTS) as pool:
        found = list(pool.map(lambda k: server.ask(*calls[k % len(calls)])[::2], range(CALLS)))
    assert found == [wanted[k % len(calls)] for k in range(CALLS)]


def test_killed_workers(server):
    """Kept workers that are killed, and connections that say nothing; then all goes on."""
    asked = [{"game": game, "id": text} for game, text in OF_EACH_GAME]
    with concurrent.futures.ThreadPoolExecutor(CLIENTS) as pool:
        list(pool.map(lambda k: server.ask("solve", asked[k % len(asked)]), range(CALLS)))
    children = server.children()
    assert 4 <= len(children) <= 4 * WORKERS
    for child in children:
        os.kill(child, signal.SIGKILL)
    for one in asked:
        status, _, found = server.ask("solve", one)
        assert (status, found.get("verdict")) == (200, "one"), one
    with contextlib.ExitStack() as links:
        for _ in range(300):
            links.enter_context(socket.create_connection(("127.0.0.1", server.port), WAIT))
        assert server.ask("solve", GOOD)[::2] == (200, {"verdict": "one", "grids": [["."]]})


def test_drip(server):
    """A head that comes a byte at a time, for ever, is cut off."""
    end = time.monotonic() + 4 * WAIT
    with socket.create_connection(("127.0.0.1", server.port), WAIT) as link:
        with contextlib.suppress(OSError):
            while time.monotonic() < end:
                link.sendall(b"a")
                time.sleep(0.5)
    assert time.monotonic() < end
