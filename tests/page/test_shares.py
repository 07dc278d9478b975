"""Whom the server takes for one visitor, by what a server in front says; and the headers that keep other pages away."""
import email.message

import pytest

from puzzles.page.__main__ import visitor

NAMED = [  # the lines X-Forwarded-For in order, and the visitor
    ([], ""), (["203.0.113.9"], "203.0.113.9"),
    (["10.9.8.7, 203.0.113.9"], "203.0.113.9"),  # nginx adds to the line that is there
    (["10.9.8.7", "203.0.113.9"], "203.0.113.9"),  # HAProxy adds a line
    (["10.9.8.7, 10.9.8.6", "10.9.8.5", "203.0.113.9"], "203.0.113.9"),
    (["2001:db8:1:2:3:4:5:6"], "2001:db8:1:2::/64"), (["2001:db8:1:2::9"], "2001:db8:1:2::/64"),
    (["[2001:db8:1:3::9]"], "2001:db8:1:3::/64"), (["::ffff:203.0.113.9"], "203.0.113.9"), (["unknown"], "unknown")]


@pytest.mark.parametrize("lines, named", NAMED)
def test_visitor(lines, named):
    headers = email.message.Message()
    for line in lines:
        headers["X-Forwarded-For"] = line
    assert visitor(headers) == named


def test_headers(server):
    """No other page may hold this one's files or its window."""
    for _, headers, _ in (server.ask("solve", {"game": "pattern", "id": "1x1:/"}), server.ask("nothing", {})):
        assert headers["Cross-Origin-Resource-Policy"] == headers["Cross-Origin-Opener-Policy"] == "same-origin"


def test_packed(server):
    """A browser that takes gzip gets files packed, with a tag of their own."""
    plain, packed = (server.send(b"GET /page.js HTTP/1.0\r\nHost: localhost\r\n%s\r\n" % more, False).partition(b"\r\n\r\n")
                     for more in (b"", b"Accept-Encoding: gzip\r\n"))
    assert b"Content-Encoding: gzip" in packed[0] and b"Content-Encoding" not in plain[0]
    assert len(packed[2]) < len(plain[2])
    tags = [head.partition(b"ETag: ")[2].partition(b"\r\n")[0] for head in (plain[0], packed[0])]
    assert tags[0] != tags[1]
    asked = b"GET /page.js HTTP/1.0\r\nHost: localhost\r\nAccept-Encoding: gzip\r\nIf-None-Match: %s\r\n\r\n"
    assert b" 304 " in server.send(asked % tags[1], False)
