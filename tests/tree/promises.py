#!/usr/bin/env python3
"""Checks docs/PROMISES.md and the wrong bodies against the tree.

usage: promises.py [--help | --number]

- The tables of parts and promises have rows `| NUMBER | PROMISE | CONTRACT |`, numbered from 1 on through all of them. The last
  table has a row `| NUMBER | DEFINITIONS | WRONG BODIES |` for each, in the same order. --number numbers them anew, where a row
  was added by a number of its own, as 17a, in both.
- Each wrong body named in the last column is a file crates/NAME/must-fail/BODY.edit, and each such file is named by one promise.
  It lies in a crate in which a call of its promise stands.
- A promise names at most three, or says in so many words that it is of laws, "with no body", or has "none of its own".
- Each public call has its promise: it is named in a column of contracts. Public calls are the `pub fn`s that a library's lib.rt
  hands on, by themselves, with their type or with their module; of the program those of PROGRAM in contracts.py. So are the
  members of the traits that it hands on: a promise names one at the trait, or at a type that has it.
- Each wrong body has one line `# refused by: FUNCTION.CLAUSE`, and there is such a clause: see the next paragraph. The function
  is a call of the wrong body's promise, or one that such a call leads to.
- What a column of contracts names in code marks is there in some crate: calls, clauses, types and crates.
- The column of definitions has words with their files, as "`IsClosing`, `IsDead` in [engine_core/ClosingList]", the groups parted
  by ";". It may say "the same" as the row above, or "none". Each word is defined in its file. It is named by the contract of a
  call of the promise, or in the file of another such word.
- No contract of what is handed on names a word of a file of definitions that says of itself that none does.

FUNCTION is `f`, `T::f`, or `T::f of U` for U's own f of the trait T. CLAUSE is the name of an `ensures` of it, or of the
trait's f, or of a `requires` that the wrong body does not meet. FUNCTION alone stands for the `ensures` that has no name.
`invariant` is the one of the function's type, and `from_gives` what an `impl` of `From` says that it gives.

In a column of contracts `T::f`, or `T::f.clause`, names the call f of T. Behind it a bare `g` names T's call g, or the function g.
"of" or "at" a type after a trait's call means that type's own. "the calls of `T`", or of `T`, `U` and `V`, are all calls of each.
"the same" are the calls of the row above too. Families that a promise names by a phrase are in FAMILIES.
Prints what is missing; the exit status is 1 where anything is.
"""
import collections
import re
import signal
import sys

from tree.contracts import (TOP, called, crates, defined, functions, ghosts, imports, is_member, is_private,
                       names, public_calls, public_clauses)

MOST_BODIES = 3
NO_BODY = ("no body", "none of its own")
GAMES = ["pattern", "solo", "lights", "tents"]
REFUSED_BY = "# refused by: "

PROMISES = TOP / "docs" / "PROMISES.md"
HEADS = (["", "Promise", "Contract"], ["", "Part", "Contract"], ["Promise", "Definitions", "Wrong bodies refused"])

# What a phrase of a column of contracts names.
FAMILIES = {
    "four readers": [f"read_{game}" for game in GAMES],
    "four writers": [f"write_{game}" for game in GAMES],
    "four makers": [f"make_{game}" for game in GAMES],
    "calls of the four puzzle types": ["PatternPuzzle", "SoloPuzzle", "LightPuzzle", "TentsPuzzle"],
    "`rules_are_lawful` and its like": ["rules_are_lawful", "rules_of_lights_are_lawful", "rules_of_tents_are_lawful"],
}


class Code:
    """All functions of the crates, by their names, and by their types and traits with their names."""

    def __init__(self):
        self.by_name, self.by_owner, self.of_owner = (collections.defaultdict(list) for _ in range(3))
        for call in (call for crate in crates() for call in functions(crate)):
            if not call.kind and not call.trait:
                self.by_name[call.name].append(call)
            for owner in {call.kind, call.trait} - {None}:
                self.by_owner[owner, call.name].append(call)
                self.of_owner[owner].append(call)
        self.types = {name for crate in crates() for file in crate.glob("src/**/*.rt")
                      for name in re.findall(r"(?m)^(?:pub(?:\(crate\))? )?(?:struct|enum|trait|type) (\w+)", file.read_text())}

    def whole(self, call):
        """The contract of a call, with that of its trait."""
        above = [other for other in self.by_owner[call.trait, call.name] if not other.kind] if call.kind and call.trait else []
        return [call, *above]


def clause_texts(code, call, clause):
    """What a clause of a call says, or its whole contract, with ghost members that stand beside it; each with its file."""
    for each in code.whole(call):
        yield each.file, each.clauses.get(clause, "") if clause is not None else each.text
    for (trait, kind), members in ghosts(TOP / "crates" / call.crate).items():
        if call.kind and kind == call.kind and trait in (call.trait, "Model"):
            yield from ((file, text) for file, _, text in members)


def is_clause(crate, code, text):
    """Whether the text after REFUSED_BY names a clause of a function of the crate."""
    form = re.fullmatch(r"(?:(\w+)::)?(\w+)(?: of (\w+))?(?:\.(\w+))?", text)
    if not form:
        return False
    owner, name, kind, clause = form[1], form[2], form[3], form[4] or ""
    calls = code.by_owner[owner, name] if owner else code.by_name[name]
    calls = [call for call in calls if call.crate == crate.name and kind in (None, call.kind)]
    kinds = {call.kind for call in calls}
    of_type = {name for (_, kind), members in ghosts(crate).items() if kind in kinds for _, name, _ in members}
    there = {clause for call in calls for each in code.whole(call) for clause in each.clauses}
    return clause in there | of_type & {"invariant", "from_gives"}


def is_of_row(crate, row, text):
    """Whether the clause after REFUSED_BY is of a call of the row, or of a function of the crate that such a call leads to."""
    name = re.fullmatch(r"(?:\w+::)?(\w+)(?: of \w+)?(?:\.\w+)?", text)[1]
    return name in called(crate, {call.name for call, _ in row.calls})


def body_faults(code, table, named_by):
    """What is wrong with the files of wrong bodies, by the promises that name each."""
    rows_of = {body: row for row in table for body in row.bodies}
    for crate in crates():
        for file in sorted(crate.glob("must-fail/*.edit")):
            where = f"{crate.name}: {file.stem}:"
            if named_by[file.stem] != 1:
                yield f"{where} named by {named_by[file.stem]} promises, and not by one"
            elif crate.name not in (there := {call.crate for call, _ in rows_of[file.stem].calls}):
                row = rows_of[file.stem].number
                yield f"{where} the calls of its promise, {row}, stand in {', '.join(sorted(there)) or 'no crate'}"
            lines = [line for line in file.read_text().splitlines() if line.startswith(REFUSED_BY)]
            if len(lines) != 1:
                yield f"{where} {len(lines)} lines '{REFUSED_BY}', and not one"
            for line in lines:
                if not is_clause(crate, code, line.removeprefix(REFUSED_BY)):
                    yield f"{where} no such clause: {line.removeprefix(REFUSED_BY)}"
                elif file.stem in rows_of and not is_of_row(crate, rows_of[file.stem], line.removeprefix(REFUSED_BY)):
                    yield f"{where} its promise, {rows_of[file.stem].number}, leads to no {line.removeprefix(REFUSED_BY)}"


def tables(text):
    """The rows of the tables of promises, parts and what they rest on: the line's place, the head of the table, and the cells."""
    head = None
    for place, line in enumerate(text.splitlines()):
        cells = [cell.strip() for cell in line.split("|")[1:-1]]
        if cells in HEADS:
            head = cells
        elif len(cells) != 3:
            head = None
        elif head and not line.startswith("|---"):
            yield place, head, cells


def rows(text):
    """The number of each promise, whether it is a part of the whole, and its cells: promise, contract, definitions, bodies."""
    found = [*tables(text)]
    rests = {cells[0]: cells[1:] for _, head, cells in found if head == HEADS[2]}
    for _, head, (number, *cells) in found:
        if head != HEADS[2]:
            yield number, head == HEADS[1], [*cells, *rests.get(number, ["none", ""])]


def numbers(text):
    """The numbers of the promises, and those of the rows of what they rest on."""
    found = [*tables(text)]
    return [[cells[0] for _, head, cells in found if (head == HEADS[2]) == is_last] for is_last in (False, True)]


def unpaired(text):
    """What is wrong with the numbers, whatever their order."""
    there, rests = numbers(text)
    yield from (f"promise {number}: no row of what it rests on" for number in there if number not in rests)
    yield from (f"definitions and wrong bodies of {number}: no such promise" for number in rests if number not in there)
    yield from (f"promise {number} stands twice" for of in (there, rests) for number in sorted(set(of)) if of.count(number) > 1)


def number_faults(text):
    """What is wrong with the numbers of promises, and of what they rest on."""
    there, rests = numbers(text)
    yield from unpaired(text)
    if any(of != [str(number) for number in range(1, len(of) + 1)] for of in (there, rests)):
        yield "the promises, or the rows of what they rest on, aren't numbered in order: --number does it"


def numbered(text):
    """The text with its promises numbered anew, and the rows of what they rest on in the same order."""
    lines, found = text.splitlines(), [*tables(text)]
    there = [cells[0] for _, head, cells in found if head != HEADS[2]]
    new = {number: str(at) for at, number in enumerate(there, 1)}
    rests = sorted((place for place, head, cells in found if head == HEADS[2]), key=lambda place: there.index(cell(lines[place])))
    of_rests = iter([lines[place] for place in rests])
    for place, head, cells in found:
        line = next(of_rests) if head == HEADS[2] else lines[place]
        lines[place] = line.replace(f"| {cell(line)} |", f"| {new[cell(line)]} |", 1)
    return "\n".join(lines) + "\n"


def cell(line):
    """The first cell of a row."""
    return line.split("|")[1].strip()


def families(code, segment):
    """The calls that a phrase names."""
    for phrase, several in FAMILIES.items():
        if phrase in segment:
            yield from (call for name in several for call in code.by_name[name] + code.of_owner[name])
    for several in re.findall(r"the calls of ((?:(?:, | and )?`\w+`)+)", segment):
        yield from (call for name in re.findall(r"\w+(?=`)", several) for call in code.of_owner[name])


def own_calls(calls, kinds):
    """The calls without those of other types, if a trait's call is named that one of these types has."""
    owned = {(call.trait, call.name) for call, _ in calls if call.trait and call.kind in kinds}
    return [(call, clause) for call, clause in calls if call.kind in kinds or (call.trait, call.name) not in owned]


def resolved(code, cell):
    """The calls that a column of contracts names, each with a clause or nothing, and what it names that isn't there."""
    found, missing, owner = [], [], None
    for segment in cell.split(";"):
        calls, others = [(call, None) for call in families(code, segment)], []
        for span in re.findall(r"`([^`]+)`", segment):
            form = re.fullmatch(r"(?:(\w+)::)?(\w+)(?:\.(\w+))?", span)
            owner, name, clause = (form[1] or owner, form[2], form[3]) if form else (owner, span, None)
            there = code.by_owner.get((owner, name), []) or ([] if form and form[1] else code.by_name.get(name, []))
            if there:
                calls += [(call, clause) for call in there]
            if not there or clause and not any(clause in each.clauses for call in there for each in code.whole(call)):
                others.append(span)
        found += own_calls(calls, {span for span in others if span in code.types})
        missing += [span for span in others if span not in code.types and not (TOP / "crates" / span).exists()]
    clauses = {clause for call, _ in found for each in code.whole(call) for clause in each.clauses}
    return found, [span for span in missing if span not in clauses and span != "From"]


class Row:
    """A promise: its number, its calls, and the wrong bodies that it names."""

    def __init__(self, code, number, is_part, cells, before):
        self.number, self.is_part, (self.promise, self.contract, self.definitions, self.wrong) = number, is_part, cells
        self.calls, self.missing = resolved(code, self.contract)
        if before and self.contract.startswith("the same"):
            self.calls = before.calls + self.calls
        if before and self.definitions == "the same":
            self.definitions = before.definitions
        self.bodies = [] if is_part else re.findall(r"`(\w+)`", self.wrong)


def row_faults(table):
    """What is wrong with the columns of calls and of wrong bodies."""
    bodies = {file.stem for file in TOP.glob("crates/*/must-fail/*.edit")}
    for row in table:
        yield from (f"promise {row.number}: no such call, clause or type: {span}" for span in row.missing)
        yield from (f"promise {row.number}: no wrong body of this name: {name}" for name in row.bodies if name not in bodies)
        if len(row.bodies) > MOST_BODIES:
            yield f"promise {row.number}: {len(row.bodies)} wrong bodies, more than {MOST_BODIES}: {row.promise}"
        if not row.is_part and not row.bodies and not any(words in row.wrong for words in NO_BODY):
            yield f"promise {row.number}: no wrong body, and no word of why: {row.promise}"


def call_faults(table):
    """The public calls that no column of contracts names."""
    named = [call for row in table if not row.is_part for call, _ in row.calls]
    told = {(call.crate, call.kind, call.name) for call in named}
    members = {(call.trait, call.name) for call in named}
    for crate in crates():
        yield from (f"{crate.name}: no promise for {call.told()}" for call in public_calls(crate)
                    if ((call.trait, call.name) not in members if is_member(call)
                        else (call.crate, call.kind, call.name) not in told))


def groups(cell):
    """The words that a column of definitions names, each with its file. Nothing where it isn't in its form."""
    forms = [re.fullmatch(r"((?:`[\w'-]+`(?:, )?)+) in \[(\w+)/(\w+)\]", group) for group in cell.split("; ")]
    if all(forms):
        return [(word, TOP / "crates" / form[2] / "specs" / f"{form[3]}.antt")
                for form in forms for word in re.findall(r"[\w'-]+", form[1])]
    return [] if cell == "none" else None


def unreached(words, texts):
    """The words that are neither in the texts nor in the file of a word that is reached."""
    def is_in(word, file, texts):
        return any(names(word, text) and file in (where, imports(where).get(word)) for where, text in texts)
    while found := [each for each in words if is_in(*each, texts)]:
        texts = [(file, file.read_text()) for _, file in found]
        words = [each for each in words if each not in found]
    return [word for word, _ in words]


def definition_faults(code, text, table):
    """What is wrong with the columns of definitions."""
    links = dict(re.findall(r"^\[(\w+/\w+)\]: \.\./(\S+)$", text, re.M))
    for row in table:
        words = groups(row.definitions)
        if words is None:
            yield f"promise {row.number}: definitions that aren't in their form: {row.definitions}"
            continue
        for word, file in words:
            if links.get(f"{file.parts[-3]}/{file.stem}") != str(file.relative_to(TOP)):
                yield f"promise {row.number}: no link to the file of {word}"
            elif not file.exists() or word not in defined(file.read_text()):
                yield f"promise {row.number}: no {word} in {file.relative_to(TOP)}"
        there = [(word, file) for word, file in words if file.exists()]
        texts = [said for call, clause in row.calls for said in clause_texts(code, call, clause)]
        yield from (f"promise {row.number}: {word} is named by no call of it and no other word"
                    for word in unreached(there, texts))


def handed_faults():
    """The words of public contracts whose file says that no public contract uses them."""
    for crate in crates():
        for file, name, text in public_clauses(crate):
            yield from (f"{crate.name}: the contract of {name} uses {word}, and {there.relative_to(TOP)} says that none does"
                        for word, there in imports(file).items() if is_private(there) and names(word, text))


def main(words):
    if words == ["--help"]:
        print(__doc__)
        return 0
    if words not in ([], ["--number"]):
        print(f"promises.py: takes no words but --help or --number: {' '.join(words)}", file=sys.stderr)
        return 2
    try:
        if words and not [*unpaired(PROMISES.read_text())]:
            PROMISES.write_text(numbered(PROMISES.read_text()))
        text, code, table = PROMISES.read_text(), Code(), []
        for number, is_part, cells in rows(text):
            table.append(Row(code, number, is_part, cells, table[-1] if table else None))
        named_by = collections.Counter(body for row in table for body in row.bodies)
        faults = [*number_faults(text), *row_faults(table), *body_faults(code, table, named_by), *call_faults(table),
                  *definition_faults(code, text, table), *handed_faults()]
    except (OSError, UnicodeDecodeError) as fault:
        print(f"promises.py: can't read the tree: {fault}", file=sys.stderr)
        return 2
    promises, calls = sum(not row.is_part for row in table), sum(len(public_calls(crate)) for crate in crates())
    if not promises or not calls or not named_by:
        faults.append("no promises, no public calls or no wrong bodies were found")
    print("\n".join([*faults, f"{promises} promises, {calls} public calls, {len(named_by)} wrong bodies, {len(faults)} faults"]))
    return 1 if faults else 0


if __name__ == "__main__":
    signal.signal(signal.SIGPIPE, signal.SIG_DFL)  # a reader that has enough ends it without a word
    sys.exit(main(sys.argv[1:]))
