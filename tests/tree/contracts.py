"""What the code of the crates says of itself: functions with their clauses, what is handed on, and what definitions are for.

No script: promises.py reads it.
"""
import collections
import dataclasses
import functools
import pathlib
import re

TOP = pathlib.Path(__file__).resolve().parents[2]

# Modules of definitions that hand words on, and have none of their own.
HANDING_ON = {"Common", "Below"}

# The program hands nothing on; these are what may be called with ends of one's own.
PROGRAM = {"run", "run_on_bytes"}

FUNCTION = re.compile(r" *(pub )?(?:pub\(crate\) )?(?:final )?(?:extern \"C\" )?fn (\w+)")
CLAUSE = re.compile(r" *(?:ensures(?: (\w+))?|requires(?: (\w+))?) \{")
GHOST = re.compile(r" *ghost (\w+)(?: =|:) ")
WORD = r"[\w'-]+"


@dataclasses.dataclass
class Function:
    """A function of a crate: its trait and its type, nothing where there is none, and its clauses by their names."""
    crate: str
    file: pathlib.Path
    trait: str | None
    kind: str | None
    name: str
    is_public: bool
    text: str
    clauses: dict

    def told(self):
        return "::".join(part for part in (self.kind or self.trait, self.name) if part)


@functools.cache
def crates():
    return sorted((TOP / "crates").iterdir())


def owners(lines):
    """Each line with the trait and the type to which it belongs, each of them nothing where there is none."""
    trait = kind = None
    for line in lines:
        if head := re.match(r"impl(?:<.*?>)? (?:(\w+)(?:<.*>)? for )?(\w+)", line):
            trait, kind = head[1], head[2]
        elif head := re.match(r"(?:pub(?:\(crate\))? )?trait (\w+)", line):
            trait, kind = head[1], None
        elif line.startswith("}"):
            trait = kind = None
        yield trait, kind, line


@functools.cache
def sources(crate):
    """The lines of each source file of a crate, each with its trait and its type, without the files of its tests."""
    files = (file for file in sorted((crate / "src").rglob("*.rt"))
             if not file.relative_to(crate / "src").parts[0].startswith("tests"))
    return {file: list(owners(file.read_text().splitlines())) for file in files}


def heads(lines):
    """The functions of a file, each with the lines of its head: from its first one to its body, or to its end in a trait."""
    found = None
    for trait, kind, line in lines:
        if FUNCTION.match(line):
            found, depth, has_clause = (trait, kind, []), 0, False
        if found:
            found[2].append(line)
            depth += line.count("{") - line.count("}")
            has_clause |= bool(CLAUSE.match(line))
            if line.strip() == "{" or depth == 0 and line.endswith((";", "{}")) or line.endswith("{") and not has_clause:
                yield found
                found = None


@functools.cache
def functions(crate):
    """The functions of a crate."""
    found = []
    for file, lines in sources(crate).items():
        for trait, kind, head in heads(lines):
            public, name = FUNCTION.match(head[0]).groups()
            clauses, clause = collections.defaultdict(str), None
            for line in head:
                if begin := CLAUSE.match(line):
                    clause = begin[1] or begin[2] or ""
                if clause is not None:
                    clauses[clause] += line + "\n"
            found.append(Function(crate.name, file, trait, kind, name, bool(public), "\n".join(head), dict(clauses)))
    return found


@functools.cache
def calls_in(crate):
    """The names that each function of a crate calls, by its name: of all functions with that name together."""
    found = collections.defaultdict(set)
    for lines in sources(crate).values():
        name = clause = None
        for _trait, _kind, line in lines:
            line = line.split("//")[0]
            if head := FUNCTION.match(line):
                name, line = head[2], line[head.end():]
            clause = CLAUSE.match(line) or clause and not line.strip() == "{"
            if name and not clause:
                found[name] |= {*re.findall(r"(\w+)(?:::<.*?>)?\(", line)}
    return dict(found)


def called(crate, names):
    """The functions of a crate with these names, and all that they call there, or that these call, by their names."""
    calls, found, fresh = calls_in(crate), set(), set(names)
    while fresh:
        found |= fresh
        fresh = set().union(*(calls.get(name, ()) for name in fresh)) & set(calls) - found
    return found


@functools.cache
def ghosts(crate):
    """The ghost members of each trait and type of a crate, by both: the file, a name, and the lines that say it."""
    found = collections.defaultdict(list)
    for file, lines in sources(crate).items():
        member = None
        for trait, kind, line in lines:
            if begin := GHOST.match(line):
                member = [file, begin[1], ""]
                found[trait, kind].append(member)
            if member:
                member[2] += line + "\n"
                if line.endswith(";"):
                    member = None
    return found


@functools.cache
def handed_on(crate):
    """The names that a crate's root hands on."""
    root = crate / "src" / "lib.rt"
    if not root.exists():
        return PROGRAM
    text = root.read_text()
    names = re.findall(r"pub use [\w:]+::(?:\{([^}]*)\}|(\w+));", text)
    open_modules = [root.with_name(f"{name}.rt").read_text() for name in re.findall(r"(?m)^pub mod (\w+);", text)]
    inside = {name for module in open_modules for name in re.findall(r"(?m)^pub fn (\w+)", module)}
    return inside | {name for several, one in names for name in re.findall(r"\w+", several or one)}


@functools.cache
def public_calls(crate):
    """The public functions of a crate, and the members of traits that it hands on."""
    return [call for call in functions(crate) if call.is_public and (call.kind or call.name) in handed_on(crate) or is_member(call)]


def is_member(call):
    """Whether it is the trait's own, of a trait that its crate hands on."""
    return bool(call.trait) and not call.kind and call.trait in handed_on(TOP / "crates" / call.crate)


def public_clauses(crate):
    """Whatever a caller of a crate may rely on: the file, a name, and the text of its contract or of a trait's ghost member."""
    for call in functions(crate):
        if call in public_calls(crate):
            yield call.file, call.told(), "\n".join(call.clauses.values())
    for (trait, kind), members in ghosts(crate).items():
        if trait in handed_on(crate) and not kind:
            yield from ((file, f"{trait}::{name}", text) for file, name, text in members)


@functools.cache
def imports(file):
    """The words that a file takes from definitions, each with the file that has it."""
    found = {}
    for crate, module, several in re.findall(r"use Rattle\.(\w+)\.specs\.(\w+)\.\{([^}]*)\}", file.read_text()):
        there = TOP / "crates" / crate / "specs" / f"{module}.antt"
        if there.exists():
            handed = imports(there) if module in HANDING_ON else {}
            found.update((word, handed.get(word, there)) for word in re.findall(WORD, several))
    return found


def defined(text):
    """The words that a file of definitions has."""
    return set(re.findall(rf"^(?: *(?:(?:abbrev|unfoldable) pub|pub (?:record|data))|pub) (?!use\b)({WORD})", text, re.M))


@functools.cache
def is_private(file):
    """Whether a file of definitions says of itself that no public contract uses its words."""
    about = re.match(r"(?:-- .*\n)*", file.read_text())[0]
    return "No public contract uses" in " ".join(about.replace("\n--", "").split())


def names(word, text):
    """Whether the text names the word."""
    return re.search(rf"(?<![\w'-]){re.escape(word)}(?![\w'-])", text)
