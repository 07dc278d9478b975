"""Edits of the crates' files, and copies of the tree with them. For `edits.py`."""
import dataclasses
import pathlib
import re
import shutil
import subprocess

TOP = pathlib.Path(__file__).resolve().parents[2]
FUNCTION = re.compile(r"( *)(pub(\([a-z ]+\))? )?(extern \"C\" )?fn \w")
# The copy's own function: whether an edit is the one that was chosen. What it gives here is of no account, as `edits_chosen.c`
# has the one that runs.
CHOOSER = "\npub fn is_edit(number: u32) -> bool {\n    number == u32::MAX\n}\n"
CHOOSERS_CRATE = "grid_core"
CHOICE = re.compile(r"if \w+::is_edit\((\d+)\) \{")
ARM = re.compile(r"( *\S.* => )([^{}]+),")


class Fault(Exception):
    """What stops the script, in words."""


class NotBuilt(Fault):
    """The tests of a crate don't compile, as was said."""

    def __init__(self, crate, said):
        super().__init__(f"the tests of {crate} don't compile: {said.strip()[-600:]}")
        self.said = said


@dataclasses.dataclass(frozen=True)
class Edit:
    """A file of a crate, and lines of it that are replaced."""
    crate: str
    name: str
    file: str
    pairs: tuple
    proves: str

    @classmethod
    def read(cls, path, crate):
        lines = path.read_text(encoding="utf-8").splitlines()

        def told(word):
            return [line.removeprefix(word).removeprefix(" ") for line in lines if line.startswith(word)]

        files, olds, news = told("file:"), told("old:"), told("new:")
        if len(files) != 1 or not olds or len(olds) != len(news):
            raise Fault(f"{path} is no edit: one line 'file:', and as many 'old:' as 'new:'")
        proves, crates = "".join(told("# proves:")), "".join(told("crate:"))
        return cls(crate or crates, path.stem, files[0].strip(), tuple(zip(olds, news)), proves)

    def path(self, folder):
        return folder / "crates" / self.crate / self.file

    def text(self, folder):
        """The edited text of the file in a copy of the tree."""
        text = self.path(folder).read_text(encoding="utf-8")
        for old, new in self.pairs:
            if text.count(old) != 1:
                raise Fault(f"{self.crate}/{self.name}: its old text stands {text.count(old)} times in {self.file}")
            text = text.replace(old, new)
        return text


class Copy:
    """A copy of the tracked files of the tree."""

    def __init__(self, folder):
        self.folder = folder
        listed = subprocess.run(["git", "ls-files", "-z", "crates", "crates.txt", "HANDLES"], cwd=TOP, check=True,
                                capture_output=True, timeout=60).stdout.decode()
        for name in filter(None, listed.split("\0")):
            if (TOP / name).is_file():
                (folder / name).parent.mkdir(parents=True, exist_ok=True)
                shutil.copy2(TOP / name, folder / name)
        subprocess.run(["git", "init", "--quiet", folder], check=True, timeout=60)

    def with_edit(self, edit, work):
        """What the work comes to while the edit is applied."""
        path = edit.path(self.folder)
        text = path.read_text(encoding="utf-8")
        path.write_text(edit.text(self.folder), encoding="utf-8")
        try:
            return work()
        finally:
            path.write_text(text, encoding="utf-8")

    def hold(self, numbers):
        """Has the tree hold these edits beside what they change, each to be chosen by its number as the program runs. It gives
        those that can't be held so.
        """
        left, files = [], {}
        for edit, number in numbers.items():
            files.setdefault(edit.path(self.folder), {})[number] = edit
        for path, edits in files.items():
            text = path.read_text(encoding="utf-8")
            changes = {number: changed(text, edit.text(self.folder)) for number, edit in edits.items()}
            text, unheld = with_choices(text, changes, "crate" if CHOOSERS_CRATE in path.parts else CHOOSERS_CRATE)
            path.write_text(text, encoding="utf-8")
            left += [edits[number] for number in unheld]
        with open(self.folder / "crates" / CHOOSERS_CRATE / "src/lib.rt", "a", encoding="utf-8") as root:
            root.write(CHOOSER)
        listed = self.folder / "crates.txt"
        listed.write_text("".join(f"{name}{kind}: {' '.join(uses | {CHOOSERS_CRATE} - {name})}\n"
                                  for name, (kind, uses) in crates_of(self.folder).items()), encoding="utf-8")
        return left

    def named_in(self, said, crate):
        """The numbers of the edits that a build of the crate names, by a file and a line of it."""
        numbers = set()
        for name, line in set(re.findall(r"([\w./-]+\.rt):(\d+)", said)):
            path = self.folder / "crates" / crate / name
            lines = path.read_text(encoding="utf-8").split("\n")[:int(line)] if path.is_file() else []
            numbers |= {int(found[1]) for found in list(filter(None, map(CHOICE.search, lines)))[-1:]}
        return numbers


def crates_of(folder):
    """Each crate of a tree, with its kind and the libraries that it names."""
    crates = {}
    for line in (folder / "crates.txt").read_text(encoding="utf-8").splitlines():
        named, found, uses = line.partition("#")[0].partition(":")
        if found:
            name, *kind = named.split()
            crates[name] = ("".join(f" {word}" for word in kind), set(uses.split()))
    return crates


def below(crates, name):
    """The crate, and those of the tree that it uses in turn."""
    return {name}.union(*(below(crates, used) for used in crates[name][1] if used in crates))


def body_around(lines, at):
    """From which line to which the body of the function goes that a line is of; nothing if it is of no body."""
    for head in range(at, -1, -1):
        if found := FUNCTION.match(lines[head]):
            space = found[1]
            opens = re.compile(rf"{space}(\{{|\S.* \{{)")
            first = next((n for n in range(head, at) if opens.fullmatch(lines[n])), at) + 1
            last = next((n for n in range(first, len(lines)) if lines[n] == f"{space}}}"), 0)
            return (first, last) if first <= at < last else None
    return None


def changed(text, edited):
    """The lines that differ, by their number, as they are in the edited text."""
    return {at: now for at, (line, now) in enumerate(zip(text.split("\n"), edited.split("\n"))) if line != now}


def divided(lines, changes, number, path):
    """What an edit changes: lines of bodies of functions, by their body, to be chosen; and lines that stand for all edits: what is
    added to types and beside functions, and an arm of a macro that chooses. If a type has more, what bodies add at the end of a
    line goes with it.
    """
    bodies, others = {}, {}
    for at, now in changes.items():
        was, is_added = ARM.fullmatch(lines[at]), now.startswith(lines[at])
        place = body_around(lines, at) or is_added and body_around(lines, at + 1)
        if place:
            bodies.setdefault(place, {})[at] = now
        elif was and (arm := ARM.fullmatch(now)) and arm[1] == was[1]:
            others[at] = f"{was[1]}if {path}::is_edit({number}) {{ {arm[2]} }} else {{ {was[2]} }},"
            bodies[at, at] = {}
        else:
            others[at] = now
    if others:
        for body in bodies.values():
            others |= {at: body.pop(at) for at, now in list(body.items()) if now.startswith(lines[at])}
    return {place: body for place, body in bodies.items() if body or place[0] == place[1]}, others


def with_choices(text, edits, path):
    """The text that chooses among what these edits, by their numbers, make of it; and the numbers of those that can't be chosen so.
    An edit is given by the lines that it changes.
    """
    lines = text.split("\n")
    choices, all_others, left = {}, {}, []
    for number, changes in edits.items():
        bodies, others = divided(lines, changes, number, path)
        if not bodies or others.keys() & all_others.keys():
            left.append(number)
            continue
        all_others |= others
        for place, body in bodies.items():
            choices.setdefault(place, {})[number] = body
    made = [all_others.get(at, line) for at, line in enumerate(lines)]
    for (first, last), found in sorted(choices.items(), reverse=True):
        if first < last:
            chain = []
            for number, body in found.items():
                head = [body[at].removeprefix(lines[at]) for at in body if at < first]
                chosen = [body.get(at, made[at]) for at in range(first, last)]
                chain += [f"if {path}::is_edit({number}) {{", *head, *chosen, "} else"]
            made[first:last] = [*chain[:-1], "} else {", *made[first:last], "}"]
    return "\n".join(made), left
