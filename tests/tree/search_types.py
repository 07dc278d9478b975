#!/usr/bin/env python3
"""Shows that what a search changes has no call that takes memory.

usage: search_types.py [--help]

- The types of the crates that a search runs in, puzzles too, keep their lists as `Fixed`, whose length stays and which lends no
  allocator. So no field of them is a list that can grow, a text, a box or an allocator, but for those of KEPT.
- Bodies that take memory and drop a refusal don't compile: two of `Store::solve`, one of a visit of each kind that reads a list
  or a block of its rules. They are tried in a copy of the last commit. It needs the kit on the path, and some seconds for each.

Prints what it finds; the exit status is 1 where a field is left, or a body compiles.
"""
import pathlib
import re
import subprocess
import sys
import tempfile
import typing

TOP = pathlib.Path(__file__).resolve().parents[2]
CRATES = ("grid_core", "gameid_core", "engine_core", "pattern_core", "solo_core", "fields_core")


class Body(typing.NamedTuple):
    """Lines that take memory, to stand before another line of a file of a crate."""

    name: str
    place: str
    before: str
    lines: str


GROWING = re.compile(r"\b(Vec|String|Box|Rc|Global|VecDeque|HashMap|BTreeMap|\w*Alloc\w*)\b")
KEPT = {
    ("grid_core/src/fixed.rt", "list"): "the list in a `Fixed`, which lends its items alone",
    ("engine_core/src/houses/list.rt", "places"): "houses that are still being listed; rules have them as a `FrozenList`",
    ("engine_core/src/houses/list.rt", "ends"): "the same",
    ("gameid_core/src/pattern/clues.rt", "numbers"): "clues of a puzzle of Pattern, which its rules don't keep",
    ("gameid_core/src/pattern/clues.rt", "ends"): "the same",
    ("pattern_core/src/line_scratch.rt", "rows"): "one block, which lends its rows alone",
}
SOLVE = "        self.search.run(rules, &mut self.position, budget)\n"
BODIES = (
    Body("a list that grows", "engine_core/src/store.rt", SOLVE,
         "        let _full = self.search.levels.frames.reserve(1);\n"),
    Body("a copy of a board", "engine_core/src/store.rt", SOLVE,
         "        let alloc = *self.search.levels.frames.allocator();\n"
         "        let _copy = Grid::new(alloc, rules.cells());\n"),
    Body("a list by the allocator of the houses", "engine_core/src/houses/list.rt",
         "        &places[begin(ends, house)..ends[house]]\n",
         "        let _list = Vec::<u32>::with_capacity(*self.places.allocator(), 1);\n"),
    Body("a list by the allocator of a line's rows", "pattern_core/src/planes/visit.rt",
         "    let size = rules.size();\n",
         "    let _list = Vec::<u32>::with_capacity(*Box::allocator(&scratch.rows), 1);\n"),
    Body("a list by the allocator of a puzzle", "gameid_core/src/solo/puzzle.rt",
         "        self.givens[place]\n",
         "        let _list = Vec::<u32>::with_capacity(*self.givens.allocator(), 1);\n"),
)
CHECK_SECONDS = 1800


def parts(text):
    """The parts of a text between commas that stand in no brackets."""
    depth, part = 0, ""
    for sign in text.replace("->", "  "):
        depth += (sign in "<([{") - (sign in ">)]}")
        if sign == "," and not depth:
            yield part.strip()
            part = ""
        else:
            part += sign
    yield part.strip()


def in_brackets(text):
    """What stands between the bracket that a text begins with and the one that closes it."""
    depth = 0
    for at, sign in enumerate(text):
        depth += (sign in "([{") - (sign in ")]}")
        if not depth:
            return text[1:at]
    return ""


def members(name, body):
    """The fields of a type or a variant, each with its name, or with that of its owner, and its type."""
    for part in parts(in_brackets(body)):
        part = re.sub(r"^(?:#\[[^\]]*\]\s*)*(?:pub(?:\([^)]*\))?\s+)?", "", part)
        named = re.match(r"(\w+)\s*:(?!:)\s*(.*)", part, re.S) if body.startswith("{") else None
        if part and not part.startswith("ghost "):
            yield (named[1], named[2]) if named else (name, part)


def fields(text):
    """The fields of the types of a file, also of tuple structs and of variants, by name, each with its type."""
    text = re.sub(r"//[^\n]*", "", text)
    text = re.sub(r"(?m)^ *ghost \w+: \{.*?\}(?: by \{.*?\})?,$", "", text, flags=re.S)
    for head in re.finditer(r"(?m)^(?:pub(?:\([^)]*\))? )?(struct|enum) (\w+)(?:<[^({;]*?>)?[^({;]*(?=[({])", text):
        kind, name, body = head[1], head[2], text[head.end():]
        if kind == "struct":
            yield from members(name, body)
            continue
        for variant in parts(in_brackets(body)):
            own = re.match(r"(?:#\[[^\]]*\]\s*)*(\w+)\s*(?=[({])", variant)
            yield from members(own[1], variant[own.end():]) if own else ()


def left_fields():
    """The fields that can take memory, and that aren't kept."""
    for crate in CRATES:
        for path in sorted((TOP / "crates" / crate / "src").rglob("*.rt")):
            place = str(path.relative_to(TOP / "crates"))
            for name, kind in fields(path.read_text(encoding="utf-8")):
                kind = " ".join(kind.split())
                if GROWING.search(kind) and (place, name) not in KEPT:
                    yield f"{place}: {name}: {kind}"


def refusal(crates, body):
    """What the compiler says of the file with that body, or none if it says nothing of it."""
    path = crates / body.place
    text = path.read_text(encoding="utf-8")
    if text.count(body.before) != 1:
        sys.exit(f"search_types.py: {body.place} has another text than this script knows")
    path.write_text(text.replace(body.before, body.lines + body.before), encoding="utf-8")
    crate, place = body.place.split("/", 1)
    done = subprocess.run(["rt", "check"], cwd=crates / crate, text=True, timeout=CHECK_SECONDS,
                          stdout=subprocess.PIPE, stderr=subprocess.STDOUT)
    path.write_text(text, encoding="utf-8")
    said = re.search(rf"(?m)^{re.escape(place)}:\d+:\d+: error.*", done.stdout)
    return said[0] if said and done.returncode else None


def main():
    if {"-h", "--help"} & set(sys.argv[1:]):
        print(__doc__)
        return
    if sys.argv[1:]:
        sys.exit("search_types.py: it takes no words but --help")
    faults = 0
    for field in left_fields():
        print(f"a field that can take memory: {field}")
        faults += 1
    with tempfile.TemporaryDirectory() as folder:
        subprocess.run(["git", "clone", "--quiet", TOP, folder], check=True, timeout=CHECK_SECONDS)
        for body in BODIES:
            said = refusal(pathlib.Path(folder) / "crates", body)
            print(f"{body.name}: {said or 'it compiles'}", flush=True)
            faults += said is None
    print(f"{faults} faults")
    sys.exit(faults > 0)


if __name__ == "__main__":
    try:
        main()
    except (OSError, subprocess.SubprocessError) as fault:
        sys.exit(f"search_types.py: {fault}")
    except KeyboardInterrupt:
        sys.exit(130)
