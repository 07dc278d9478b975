#!/usr/bin/env python3
"""Looks at the documents: README.md, docs/, and the README.md of other folders.

- Each link leads to a file, and to a heading in it. Each place of the repository that is named in code marks is there. A link by
  a label, as [engine_core/Walk], has its line at the end, and each such line is used.
- Tables that stand in two documents agree: words, limits, commands and statuses of README.md and docs/FORMATS.md, and those of
  README.md and the manual page, docs/puzzles.1. README.md has the number of wrong bodies. The minutes of docs/CONTRIBUTING.md
  are the sums of the gate's table in bench/README.md. The numbers of docs/FIFTH_GAME.md are those of the tree.
- Each example of docs/CALLING.md stands in the file that is named above it. Each function of a step of a run, in
  docs/ARCHITECTURE.md, stands in a file that is named beside it.
- A line has at most 130 columns and a sentence at most 25 words, outside of tables, code and the theorem that is quoted.
- What docs/DECISIONS.md and docs/PROOF.md name in code marks is in the crates, or a place, a word or a game of the program, but
  behind *Tried* and *Weighed*.
- A word has one definition in all of crates/*/specs, but for those of TWICE, a list that only gets shorter.
- Each script that a document names, a file that begins with #!, can be run, prints a text of its own by --help, and meets a wrong
  word without a traceback.

Prints what is not so; the exit status is 1 if anything is.
"""
import argparse
import os
import pathlib
import re
import subprocess
import sys

from tree import fifth_game
from tree.contracts import HANDING_ON, defined

TOP = pathlib.Path(__file__).resolve().parents[2]
COLUMNS, WORDS = 130, 25
HELP_SECONDS = 600
PLACE = re.compile(r"(?:docs|bench|tests|packaging|python|examples|page|library|crates|\.ci)/[\w./-]*\w")
NUMBER = re.compile(r"\d[\d,]*")
NAME = re.compile(r"[A-Za-z_][\w-]*\w")
TWICE = {}  # words with two definitions, and why they still have them: this list only gets shorter


def documents():
    places = "*.md", "docs/*.md", "*/README.md", "bench/TRIED.md", "examples/*/README.md"
    return sorted(path for place in places for path in TOP.glob(place))


def plain_lines(text):
    """The lines outside of fenced code, with their numbers."""
    fenced = False
    for number, line in enumerate(text.split("\n"), 1):
        if line.startswith("```"):
            fenced = not fenced
        elif not fenced:
            yield number, line


def anchors(path):
    """The headings of a document, as links name them, and what it names itself by `<a id="..">`."""
    lines = [line for _, line in plain_lines(path.read_text())]
    heads = (line.lstrip("#").strip().lower() for line in lines if line.startswith("#"))
    own = re.findall(r'<a id="([\w-]+)">', "\n".join(lines))
    return {re.sub(r"[^\w\- ]", "", head).replace(" ", "-") for head in heads}.union(own)


def links(path):
    """What is wrong with the links of a document, and with the places that it names."""
    text = "\n".join(line for _, line in plain_lines(path.read_text()))
    used, lines = (set(re.findall(rf"\[(\w+/\w+)\]{end}", text)) for end in ("(?![(:])", ": "))
    yield from (f"{path.relative_to(TOP)}: [{label}] has no line, or no use" for label in sorted(used ^ lines))
    for number, line in plain_lines(path.read_text()):
        for target in re.findall(r"(?:\]\(|^\[\w+/\w+\]: )([^)\s]+)", line):
            name, _, anchor = target.partition("#")
            found = (path.parent / name).resolve() if name else path
            if "://" not in target and not found.exists():
                yield f"{path.relative_to(TOP)}:{number}: no such file: {target}"
            elif anchor and anchor not in anchors(found):
                yield f"{path.relative_to(TOP)}:{number}: no such heading: {target}"
        for span in re.findall(r"`([^`]+)`", line):
            word = span.split(" ")[0]
            if PLACE.fullmatch(word) and not re.search(r"NAME|/out(?:/|$)", word) and not [*TOP.glob(word), *TOP.glob(f"{word}.*")]:
                yield f"{path.relative_to(TOP)}:{number}: no such place: {word}"


def lengths(path):
    """Lines and sentences that are too long."""
    paragraph, first = "", 0
    for number, line in [*plain_lines(path.read_text()), (0, "")]:
        is_prose = line.strip() and not re.match(r"\s*[|#>]|\[\w+/\w+\]: ", line)
        if is_prose and len(line) > COLUMNS:
            yield f"{path.relative_to(TOP)}:{number}: {len(line)} columns"
        if is_prose and not re.match(r"\s*(- |\d+\. )", line):
            first, paragraph = first or number, f"{paragraph} {line.strip()}"
            continue
        for sentence in re.split(r"(?<=[.!?])\s+", re.sub(r"`[^`]*`", "x", paragraph).replace("*", "")):
            if len(sentence.split()) > WORDS:
                yield f"{path.relative_to(TOP)}:{first}: {len(sentence.split())} words: {sentence.strip()[:80]}"
        paragraph, first = (re.sub(r"^\s*(- |\d+\. )", "", line), number) if is_prose else ("", 0)


def rows(path, head):
    """The rows of the tables under a heading, by their first cell."""
    found, is_under = {}, False
    for _, line in plain_lines((TOP / path).read_text()):
        if line.startswith("#"):
            is_under = line == head
        elif is_under and line.startswith("| "):
            first, *others = [cell.strip() for cell in line.strip("|").split(" | ")]
            found[first] = others
    return found


def twice():
    """What the two tables say that stand in README.md and in docs/FORMATS.md, by a name."""
    spans = re.compile(r"`([^`]+)`")
    words = [rows("README.md", "## Commands"), rows("docs/FORMATS.md", "## 8. Commands and words")]
    for name in ("`--budget B`", "`--seed S`", "`--tries T`", "`--black P`"):
        yield name, *[NUMBER.findall(" ".join(table.get(name, ["no row"]))) for table in words]
    for name in ("`solve`", "`check`", "`grade`", "`generate`"):
        yield name, *[spans.findall(table.get(name, ["no row"])[0]) for table in words]
    limits = [words[0], rows("docs/FORMATS.md", "## 1. Game IDs: the part before the colon")]
    for name in ("Solo", "Pattern", "Light Up, Tents"):
        yield name, *[NUMBER.findall(table.get(name, ["no row"])[-1]) for table in limits]
    here, there = [rows("README.md", "## Answers and statuses"), rows("docs/FORMATS.md", "## 7. Statuses")]
    yield "statuses", [name for name in here if name.isdigit()], [name for name in there if name.isdigit()]
    for name in there:
        told, meant = [set(spans.findall(table.get(name, [""])[0])) for table in (here, there)]
        yield f"status {name}", sorted(told & meant), sorted(meant)


def unmarked(text):
    """Lines of a manual page as one, without macros."""
    for macro, sign in ((r"\&", ""), ("Fl -", "--"), ("Oo ", "["), (" Oc", "]"), (" Ns ", "")):
        text = text.replace(macro, sign)
    return re.sub(r"^\.|\b(?:Cm|Ar|Ql|Pp)\b ?", "", text, flags=re.M).strip().replace("\n.", " ").replace("\n", " ")


def by_manual():
    """What README.md and the manual page say, by a name."""
    page, words = (TOP / "docs" / "puzzles.1").read_text(), rows("README.md", "## Commands")
    synopsis = dict(unmarked(call).partition(" ")[::2] for call in page.partition(".Sh DESCRIPTION")[0].split("\n.Nm\n")[1:])
    for name in ("solve", "check", "grade", "generate"):
        yield name, re.findall(r"`([^`]+)`", words[f"`{name}`"][0])[0], synopsis.get(name)
    lists = re.findall(r"\n\.Bl.*?\n(.*?)\n\.El", page, re.S)
    lists = [item.partition("\n") for text in lists for item in f"\n{text}".split("\n.It ")[1:]]
    items = {unmarked(head): text for head, _, text in reversed(lists)}  # of two with one head the first
    for name, cells in words.items():
        told, meant = unmarked(items.get(name.strip("`"), "no item")), " ".join(cells)
        if name.startswith(("`--", "`ID")):
            yield name, NUMBER.findall(meant), NUMBER.findall(told)
        if name in ("Solo", "Pattern", "Light Up, Tents"):
            yield name, cells[-1].lower(), cells[-1].lower() if cells[-1].lower() in told.lower() else told
    for name, cells in rows("README.md", "## Answers and statuses").items():
        if name.isdigit():
            told = re.findall(r"^\.(?:Ql|Cm) (?:\( )?(.*?)[ ;:,.)]*$", items.get(name, "").replace(r"\&", ""), re.M)
            yield f"status {name}", sorted({span.strip(": ") for span in re.findall("`([^`]+)`", cells[0])}), sorted(set(told))


def numbers():
    """What is wrong with the number of wrong bodies in README.md, the minutes in docs/CONTRIBUTING.md and the counts of Tents."""
    told = re.findall(r"(\d+) wrong bodies", (TOP / "README.md").read_text())
    there = len([*TOP.glob("crates/*/must-fail/*.edit")])
    if told != [str(there)]:
        yield f"README.md: {' and '.join(told) or 'no number of'} wrong bodies; there are {there}"
    done = subprocess.run([TOP / "bench" / "tables.py", "--check"], capture_output=True, text=True, timeout=HELP_SECONDS, check=False)
    if done.returncode:
        yield (done.stdout + done.stderr).strip()
    yield from fifth_game.faults()


def doubles(texts, known):
    """What is wrong with the words of definitions, by the text of each place: those that have two, but for the known ones."""
    places = {}
    for place, text in sorted(texts.items()):
        for word in sorted(defined(text)):
            places.setdefault(word, []).append(place)
    for word, there in places.items():
        if len(there) > 1 and word not in known:
            yield f"{word} has {len(there)} definitions: {', '.join(there)}. One word has one meaning"
    yield from (f"TWICE of documents.py: {word} has one definition, or none: take it out" for word in known
                if len(places.get(word, [])) < 2)


def definitions():
    """The files of definitions, by their places; without lists of modules, and those that hand words on."""
    files = (file for file in TOP.glob("crates/*/specs/**/*.antt") if file.stem not in {*HANDING_ON, "Lib"})
    return {str(file.relative_to(TOP)): file.read_text() for file in files}


def examples():
    """The examples of docs/CALLING.md that don't stand in their file."""
    text = (TOP / "docs" / "CALLING.md").read_text()
    found = re.findall(r"In \[[^]]*\]\(\.\./([^)]*)\):\n\n```rust\n(.*?)```", text, re.S)
    if len(found) != text.count("```rust"):
        yield "docs/CALLING.md: an example without the name of its file above it"
    yield from (f"docs/CALLING.md: an example that isn't in {place}" for place, code in found
                if code not in (TOP / place).read_text())


def steps():
    """The functions of the steps of a run, in docs/ARCHITECTURE.md, that don't stand where it says."""
    for step, cells in rows("docs/ARCHITECTURE.md", "## The way of a run").items():
        places = re.findall(r"`(crates/[^`]+)`", cells[-1])
        files = [file for place in places for file in [TOP / place, *(TOP / place).rglob("*.rt")] if file.is_file()]
        words = {word for file in files for word in NAME.findall(file.read_text())}
        for name in re.findall(r"`(?:\w+::)?(\w+)!?`", cells[0]) if places else []:
            if name not in words:
                yield f"docs/ARCHITECTURE.md: step {step.partition('.')[0]}: no {name} in {' or '.join(places)}"


def stale(path):
    """The names in a document that are nowhere, but for those that are told of other ways."""
    code = [file for place in ("src/**/*.rt", "specs/*.antt", "proofs/*.antt") for file in TOP.glob(f"crates/*/{place}")]
    places = [*code, *(place for depth in ("*", "*/*", "crates/*/*", "tests/*/*") for place in TOP.glob(depth))]
    texts = [file.read_text() for file in [*code, *(TOP / name for name in ("README.md", "docs/CONTRIBUTING.md", "docs/FORMATS.md"))]]
    known = {name for place in places for part in place.relative_to(TOP).parts for name in (part, pathlib.Path(part).stem)}
    known.update(word for text in texts for word in NAME.findall(text))
    tells = True
    for number, line in plain_lines(path.read_text()):
        tells |= line.startswith(("- ", "#"))
        for part in re.split(r"(\*(?:Tried|Weighed)\*)", line):
            tells &= part not in ("*Tried*", "*Weighed*")
            for span in re.findall(r"`([^`]+)`", part) if tells else []:
                yield from (f"{path.relative_to(TOP)}:{number}: nothing is named {name}, in {span}"
                            for name in NAME.findall(span) if name not in known)


def scripts():
    """What is wrong with the scripts that a document names."""
    text = "".join(path.read_text() for path in documents())
    named = re.findall(r"(?:bench|tests|packaging|examples|library|page)/[\w/]+\.(?:py|sh)", text)
    names = [name for name in named if (TOP / name).exists()]
    names += [f"bench/{name}" for name in re.findall(r"^\| `(\w+\.py)", (TOP / "bench" / "README.md").read_text(), re.M)]
    for name in sorted(set(names)):
        if not (TOP / name).read_bytes().startswith(b"#!"):
            continue  # a module of a script
        if not os.access(TOP / name, os.X_OK):
            yield f"{name}: can't be run"
            continue
        for word, is_right in (("--help", lambda status: status == 0), ("--no-such-word", lambda status: status != 0)):
            try:
                done = subprocess.run([TOP / name, word], capture_output=True, text=True, stdin=subprocess.DEVNULL, check=False,
                                      timeout=HELP_SECONDS)
            except (OSError, subprocess.TimeoutExpired) as fault:
                yield f"{name} {word}: {fault}"
                continue
            if not is_right(done.returncode) or "Traceback" in done.stderr or not done.stdout + done.stderr:
                yield f"{name} {word}: status {done.returncode}: {(done.stderr or done.stdout).strip()[-100:]}"


def all_faults():
    yield from (fault for path in documents() for look in (links, lengths) for fault in look(path))
    yield from (f"{name}: README.md has {here}, docs/FORMATS.md {there}" for name, here, there in twice() if here != there)
    yield from (f"{name}: README.md has {here}, docs/puzzles.1 {there}" for name, here, there in by_manual() if here != there)
    yield from (fault for name in ("DECISIONS.md", "PROOF.md") for fault in stale(TOP / "docs" / name))
    yield from doubles(definitions(), TWICE)
    yield from (fault for look in (numbers, examples, steps, scripts) for fault in look())


def main():
    argparse.ArgumentParser(description=__doc__, formatter_class=argparse.RawDescriptionHelpFormatter).parse_args()
    try:
        faults = [*all_faults()]
    except (OSError, UnicodeDecodeError) as fault:
        sys.exit(f"documents.py: can't read the tree: {fault}")
    print("\n".join([*faults, f"{len(documents())} documents, {len(faults)} faults"]))
    return 1 if faults else 0


if __name__ == "__main__":
    sys.exit(main())
