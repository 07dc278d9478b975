"""A server of the page under test, and what its longer tests compare."""
import contextlib
import http.client
import json
import socket
import subprocess
import sys
import time
from pathlib import Path

TOP = Path(__file__).resolve().parents[2]
PAGE, RUN = TOP / "page", TOP / "python" / "run"
WEB = PAGE / "web"
WAIT = 120  # seconds of any wait for the server
PATIENT = 600, 600  # seconds for an answer and for a turn: a busy machine doesn't break them
TRIED = 300  # seconds in which a puzzle has to be made


class Tally:
    """Gathers what differs in a test of many steps, for one end."""

    def __init__(self):
        self.right, self.faults = 0, []

    def same(self, what, got, wanted):
        if got == wanted:
            self.right += 1
        else:
            self.faults.append(f"{what[:200]}: {str(got)[:300]}\n  and not {str(wanted)[:300]}")

    def true(self, what, holds):
        self.same(what, bool(holds), True)


class Server:
    """The server as a process of its own, on a free port."""

    def __init__(self, program, *more, before=(), script=RUN, clocks=None):
        """With other clocks than its own: seconds for an answer, and for a turn."""
        tool = ["tests/page/clocks.py", *map(str, clocks)] if clocks else ["page"]
        words = [*before, sys.executable, script, *tool, "--port", "0", *more, program]
        self.child = subprocess.Popen(words, cwd=TOP, stdin=subprocess.DEVNULL, stdout=subprocess.PIPE, text=True)
        self.url = self.child.stdout.readline().strip()
        if not self.url:
            raise RuntimeError("the server said why it ended")
        self.port = int(self.url.rstrip("/").rpartition(":")[2])

    def stop(self):
        self.child.terminate()
        try:
            return self.child.wait(WAIT)
        except subprocess.TimeoutExpired:
            self.child.kill()
            return self.child.wait()

    def children(self):
        """The process numbers of its children."""
        found = []
        for status in Path("/proc").glob("[0-9]*/stat"):
            with contextlib.suppress(OSError):
                number, _, rest = status.read_text().partition(" (")
                if int(rest.rpartition(") ")[2].split()[1]) == self.child.pid:
                    found.append(int(number))
        return found

    def ask(self, call, told, host=None, visitor=None):
        """Status, headers and parts of a reply."""
        link = http.client.HTTPConnection("127.0.0.1", self.port, timeout=WAIT)
        with contextlib.closing(link):
            headers = {"Content-Type": "application/json", **({"Host": host} if host else {}),
                       **({"X-Forwarded-For": visitor} if visitor else {})}
            link.request("POST", f"/{call}", json.dumps(told), headers)
            reply = link.getresponse()
            return reply.status, reply.headers, json.loads(reply.read())

    def made(self, game, size, seed, **more):
        """The puzzle of a seed. A busy machine may need several tries, for each has its two seconds."""
        end, asked = time.monotonic() + TRIED, {"game": game, "size": size, "seed": seed, **more}
        while True:
            _, _, told = self.ask("generate", asked)
            if "id" in told or time.monotonic() > end:
                return told

    def send(self, sent, closing):
        """All that comes back for these bytes."""
        with socket.create_connection(("127.0.0.1", self.port), WAIT) as link:
            link.sendall(sent)
            if closing:
                link.shutdown(socket.SHUT_WR)
            got = b""
            with contextlib.suppress(ConnectionResetError):
                while piece := link.recv(1 << 16):
                    got += piece
            return got
