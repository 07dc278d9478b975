"""What the tests ask the page's server, and what must come. The answers are the worked examples of README.md,
docs/FORMATS.md and docs/USE.md; the refusals of the page itself are named in docs/USE.md.
"""
HARD = "10x10:1/1/1/1/1/1/1/1/1//1/1/1/1/1/1/1/1/1/1"  # 725,758 trials, and no solution
WHITE = "120x120:" + "z" * 553 + "v"  # all cells white: longer than the clock
SOLO = "2x2:1b4i3_2a"
SOLVED = ["1 2 3 4", "3 4 1 2", "2 1 4 3", "4 3 2 1"]
UNPAIRED = "5x3:aiaa,1,0,2,0,0,2,0,1"
LONG = "60x60:" + "/".join(["1.2.1.3.1.2.1.3.1.2.1.2"] * 120)  # Pattern, an ID of 2,885 bytes
CANARY = "<b>canary</b>"

SOLVE = [  # game, ID, verdict, grids
    ("pattern", "5x1:1/1//1/1/2.2", "one", [["##.##"]]),
    ("pattern", " \t5x1:1/1//1/1/2.2\r\n", "one", [["##.##"]]),
    ("pattern", "\ufeff1x1:/", "one", [["."]]),
    ("pattern", "2x1:1/1/1", "none", []),
    ("pattern", "2x2:1/1/1/1", "several", [[".#", "#."], ["#.", ".#"]]),
    ("pattern", HARD, "gave up", []),
    ("solo", SOLO, "one", [SOLVED]),
    ("solo", "2x2x:1_2_3_4_3k", "one", [["1 2 3 4", "3 4 1 2", "4 3 2 1", "2 1 4 3"]]),
    ("solo", "2x2:" + "_" * 65531 + "p", "several", [SOLVED, [*SOLVED[:2], "2 3 4 1", "4 1 2 3"]]),
    ("lightup", "2x2:2c", "one", [["2O", "O."]]),
    ("lightup", "2x2:Bc", "several", [["#.", ".O"], ["#O", "O."]]),
    ("tents", "2x2:_c,0,1,1,0", "one", [["T^", ".."]]),
    ("tents", UNPAIRED, "none", []),
]
CHECK = [  # game, ID, grid, fault: none where it is correct
    ("pattern", "2x1:1//1", "#.", None),
    ("pattern", "2x1:1//1", ".#\n", "column 0"),
    ("lightup", "2x2:2c", "2O\nO.\n", None),
    ("lightup", "2x2:2c", "2O\n..\n", "number 0,0"),
    ("lightup", "2x2:2c", "2O\nOO\n", "seen 1,0"),
    ("lightup", "2x2:Bc", "#.\n..\n", "dark 1,0"),
    ("tents", "2x2:_c,0,1,1,0", "T^\n^.\n", "touch 1,0"),
    ("tents", UNPAIRED, "^T^..\n.....\n.T^T.\n", "match"),
    ("solo", SOLO, "\n".join(SOLVED), None),
    ("solo", "2x2:2o", "\n".join(SOLVED), "given 0,0"),
    ("solo", "2x2x:p", "\n".join(SOLVED), "diagonal 0"),
    ("solo", "2x3:zj", "1 2 3 4 5 6\n3 4 5 6 1 2\n5 6 1 2 3 4\n2 3 4 5 6 1\n4 5 6 1 2 3\n6 1 2 3 4 5\n", "block 0"),
]
GRADE = [  # game, ID, verdict, grade
    ("lightup", "3x3:aBBa1aBb", "one", "search 4"),
    ("lightup", "2x2:2c", "one", "local"),
    ("pattern", "5x1:1/1//1/1/2.2", "one", "lines"),
    ("pattern", "2x1:1/1/1", "none", None),
    ("pattern", "2x2:1/1/1/1", "several", None),
    ("pattern", HARD, "gave up", None),
]
MADE = ["^T.T^.", "......", ".^...^", ".T...T", "^.^.^.", "T.T.T."]
GENERATE = [  # game, size, seed, black, ID, grid: none where no try made one
    ("tents", "6x6", "1", None, "6x6:aaocfaaa,2,1,1,0,2,1,2,0,2,0,3,0", MADE),
    ("pattern", "2x2", "1", "100", "2x2:2/2/2/2", ["##", "##"]),
    ("pattern", "2x2", "18446744073709551615", "0", "2x2:///", ["..", ".."]),
    ("lightup", "2x2", "1", "100", "2x2:BBBB", ["##", "##"]),
    ("lightup", "2x2", "1", "0", None, None),
]
REFUSED = [  # of solve, check and grade: game, ID, why
    ("solo", "2x2:" + "_" * 65532 + "p", "too long"),
    ("solo", "3x3#12", "seed id"),
    ("solo", "", "no colon"),
    ("pattern", "--budget=5", "no colon"),
    ("pattern", "--", "no colon"),
    ("pattern", "-1x1:/", "bad size"),
    ("solo", "02x2:p", "bad size"),
    ("solo", "2x2k:p", "variant"),
    ("pattern", "121x1:", "size range"),
    ("solo", "2x2:0o", "bad byte at 4"),
    ("pattern", "1x\ufeff1:/", "bad size"),
    ("pattern", "2x2:1/é", "bad byte at 6"),
    ("solo", "2x2:5o", "number range at 4"),
    ("pattern", "3x1:1/1/1/2.1", "line 3 too full"),
    ("pattern", "2x2:1/1/1", "too few"),
    ("pattern", "2x2:1/1/1/1/", "too many"),
    ("pattern", "1x1:/\x00", "field id"),
    ("pattern", "1x1:/\r\n1x1:/", "field id"),
    ("pattern", "1x1:/\n\n1x1:/", "field id"),
    ("pattern", CANARY, "no colon"),
    ("pattern", "\ud800", "field id"),
    ("chess", "1x1:/", "field game"),
    ("--help", "1x1:/", "field game"),
    (["solo"], "1x1:/", "field game"),
    ("solo", None, "field id"),
]
REFUSED_MORE = [  # call, the rest of the fields, why
    ("check", {"game": "pattern", "id": "1x1:/", "grid": ""}, "grid"),
    ("check", {"game": "solo", "id": SOLO, "grid": "1 2 3 .\n"}, "grid"),
    ("check", {"game": "pattern", "id": "1x1:/", "grid": "\x00"}, "field grid"),
    ("check", {"game": "pattern", "id": "1x1:/", "grid": "." * 16385}, "field grid"),
    ("check", {"game": "pattern", "id": "1x1:/"}, "fields"),
    ("solve", {"game": "pattern"}, "fields"),
    ("solve", {"game": "pattern", "id": "1x1:/", "budget": "9"}, "fields"),
    ("generate", {"game": "tents", "size": "3x3", "seed": "1"}, "size range"),
    ("generate", {"game": "tents", "size": "--seed", "seed": "1"}, "field size"),
    ("generate", {"game": "tents", "size": "6x6", "seed": "18446744073709551616"}, "words"),
    ("generate", {"game": "tents", "size": "6x6", "seed": "-1"}, "field seed"),
    ("generate", {"game": "tents", "size": "6x6", "seed": 1}, "field seed"),
    ("generate", {"game": "tents", "size": "6x6", "seed": "1", "black": "20"}, "words"),
    ("generate", {"game": "pattern", "size": "6x6", "seed": "1", "black": "101"}, "words"),
    ("generate", {"game": "pattern", "size": "6x6", "seed": "1", "black": "1e1"}, "field black"),
    ("generate", {"game": "pattern", "size": "6x6", "seed": "1", "budget": "10000"}, "field budget"),
    ("generate", {"game": "pattern", "size": "6x6", "seed": "1", "budget": "-1"}, "field budget"),
    ("solve", {"game": "pattern", "id": "1x1:/", "budget": "5"}, "fields"),
]
HOST = b"Host: 127.0.0.1\r\n"
JSON = HOST + b"Content-Type: application/json\r\n"
RAW = [  # what is sent, whether the sender then closes its side, the status, why
    (b"POST /solve HTTP/1.1\r\n" + JSON + b"Content-Length: 200000\r\n\r\n" + b"1" * 200000, False, 413, "too long"),
    (b"POST /solve HTTP/1.1\r\n" + JSON + b"Content-Length: 9\r\n\r\nnonsense!", False, 400, "not JSON"),
    (b"POST /solve HTTP/1.1\r\n" + JSON + b"Content-Length: 60000\r\n\r\n" + b"[" * 60000, False, 400, "not JSON"),
    (b"POST /solve HTTP/1.1\r\n" + JSON + b"Content-Length: 60000\r\n\r\n" + b"9" * 60000, False, 400, "not JSON"),
    (b"POST /solve HTTP/1.1\r\n" + JSON + b"Content-Length: 3\r\n\r\n\xff{}", False, 400, "not JSON"),
    (b"POST /solve HTTP/1.1\r\n" + JSON + b"Content-Length: 2\r\n\r\n[]", False, 400, "fields"),
    (b"POST /solve HTTP/1.1\r\n" + JSON + b"Content-Length: 50\r\n\r\n{}", True, 400, "fields"),
    (b"POST /solve HTTP/1.1\r\n" + JSON + b"Content-Length: 50\r\n\r\n{}", False, 408, "time"),
    (b"POST /solve HTTP/1.1\r\n" + JSON + b"Content-Length: -1\r\n\r\n{}", False, 411, "length"),
    (b"POST /solve HTTP/1.1\r\n" + JSON + b"\r\n{}", False, 411, "length"),
    (b"POST /solve HTTP/1.1\r\n" + JSON + b"Content-Length: 2\r\nContent-Length: 9\r\n\r\n{}nothing", False, 411, "length"),
    (b"POST /solve HTTP/1.1\r\n" + JSON + b"Transfer-Encoding: chunked\r\n\r\n0\r\n\r\n", False, 411, "length"),
    (b"POST /solve HTTP/1.1\r\n" + HOST + b"Content-Length: 2\r\n\r\n{}", False, 415, "not JSON"),
    (b"POST /canary HTTP/1.1\r\n" + JSON + b"Content-Length: 2\r\n\r\n{}", False, 404, "path"),
    (b"POST /../solve HTTP/1.1\r\n" + JSON + b"Content-Length: 2\r\n\r\n{}", False, 404, "path"),
    (b"GET /canary HTTP/1.1\r\n" + HOST + b"\r\n", False, 404, "Not Found"),
    (b"GET /serve.py HTTP/1.1\r\n" + HOST + b"\r\n", False, 404, "Not Found"),
    (b"GET /../README.md HTTP/1.1\r\n" + HOST + b"\r\n", False, 404, "Not Found"),
    (b"GET //etc/passwd HTTP/1.1\r\n" + HOST + b"\r\n", False, 404, "Not Found"),
    (b"GET /%2e%2e/README.md HTTP/1.1\r\n" + HOST + b"\r\n", False, 404, "Not Found"),
    (b"GET / HTTP/1.1\r\n\r\n", False, 421, "Misdirected Request"),
    (b"GET / HTTP/1.1\r\nHost: canary.example\r\n\r\n", False, 421, "Misdirected Request"),
    (b"GET / HTTP/1.1\r\nHost: 127.0.0.1.canary.example:8017\r\n\r\n", False, 421, "Misdirected Request"),
    (b"POST /solve HTTP/1.1\r\nHost: canary.example\r\nOrigin: http://canary.example\r\nContent-Type: application/json\r\n"
     b"Content-Length: 2\r\n\r\n{}", False, 421, "host"),
    (b"CANARY / HTTP/1.1\r\n\r\n", False, 501, "Not Implemented"),
    (b"OPTIONS /solve HTTP/1.1\r\nOrigin: https://canary.example\r\n\r\n", False, 501, "Not Implemented"),
    (b"canary canary\r\n\r\n", False, 400, "Bad Request"),
    (b"GET / HTTP/9.canary\r\n\r\n", False, 400, "Bad Request"),
    (b"GET /" + b"a" * 70000 + b" HTTP/1.1\r\n\r\n", False, 414, "Request-URI Too Long"),
    (b"GET / HTTP/1.1\r\n" + b"a: b\r\n" * 200 + b"\r\n", False, 431, "Request Header Fields Too Large"),
]
