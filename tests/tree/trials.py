"""Trials of calls: a file's text with copies of its declarations, each with one part of a term as a call.

No script: shorter.py reads it.
"""
import collections
import re

from tree.clauses import LISTS, NAME, Part, cited, clauses, imported, needs, parts_of, shortened

MOST_DEPTH = 2  # of a clause


def without_public(lines, of):
    """A file's lines with its public lemmas and records blank, and their names, for a trial module that imports them: what they
    prove is proved."""
    kept, there, is_blank = [], [], False
    for line in lines:
        if line[:1].strip():
            lemma, record = re.match(rf"pub ({NAME}) : ", line), re.match(r"pub record ([^\s({:]+)", line)
            name = lemma[1] if lemma and lemma[1] not in of.names else record[1] if record else None
            if name:
                there.append(name)
                is_blank = True
            elif re.match(rf"(--|pub |use |record |data |abbrev |unfoldable |module |ruleset |{NAME} : )", line):
                is_blank = False
        kept.append("" if is_blank else line)
    return kept, there


class Trials:
    """A file's text with a copy behind each declaration for each clause and list, and which lines they have: `marks`."""

    def __init__(self, path, of, lists, words, module):
        self.of, self.lists, self.words, self.is_answer = of, lists, words, path.name == "Answers.antt"
        text = path.read_text(encoding="utf-8")
        self.lines, self.known, self.count, self.copies = text.split("\n"), imported(text), 0, []
        groups = collections.defaultdict(list)
        for clause in clauses(self.lines):
            groups[clause.sign, clause.name, clause.depth].append(clause)
        for parts in groups.values():
            self.add(parts)
        self.put(module)

    def above(self, clause):
        """The names that a declaration can use."""
        found = [(at, re.match(rf"^( *)(?:pub )?({NAME}) : ", line)) for at, line in enumerate(self.lines[:clause.sign])]
        return self.known | {one[2] for _, one in found if one and len(one[1]) <= clause.depth}

    def add(self, parts):
        """The copies of a declaration, by its clauses."""
        first = parts[0]
        if first.name in self.of.names or first.depth > MOST_DEPTH:
            return
        for clause in parts:
            term = "\n".join(self.lines[clause.start:clause.end])[len(clause.head) + 2:]
            for piece in [Part(clause.start, clause.end, f"{clause.head} =", "", term), *self.pieces(clause)]:
                if piece.end - piece.start < self.words.lines or self.lists is not None and str(piece.start) not in self.lists:
                    continue
                for names in self.tried(clause, piece.term) if self.lists is None else self.lists[str(piece.start)]:
                    self.copies.append((max(part.end for part in parts), self.copy(parts, clause, piece, names),
                                        {"start": piece.start, "end": piece.end, "clause": clause.head, "head": piece.head,
                                         "tail": piece.tail, "names": names}))

    def pieces(self, clause):
        return parts_of(self.lines, clause) if self.words.parts else ()

    def tried(self, clause, term):
        facts = shortened(cited(clause, term, self.above(clause), self.is_answer, self.of), self.of, self.words.most)
        if facts is not None:
            yield from (list(dict.fromkeys([*first, *facts])) for first in (LISTS if self.words.both else LISTS[:1]))

    def copy(self, parts, clause, piece, names):
        """A declaration under another name, with one part of a clause as a call."""
        self.count += 1
        lines = [line for line in self.lines[clause.sign:parts[0].start] if not line.strip().startswith("--")]
        lines[0] = re.sub(rf"^( *)(?:pub )?{re.escape(clause.name)}(?= :)", rf"\g<1>trial{self.count}", lines[0])
        for part in parts:
            mine = " " * clause.depth + f"trial{self.count}"
            body = self.lines[part.start:part.end]
            if part == clause:
                call = f"{piece.head} grind ({', '.join(names)}) steps {self.words.steps}{piece.tail}"
                body = [*self.lines[part.start:piece.start], call, *self.lines[piece.end:part.end]]
            lines += [mine + body[0][clause.depth + len(clause.name):], *body[1:]]
        return lines

    def put(self, module):
        """The whole text, with what its calls import."""
        lines, needed = self.lines, needs(self.known)
        if module:
            lines, there = without_public(lines, self.of)
            needed += [f"use {module}.{{{', '.join(there)}}}"] if there else []
        made, self.marks, at = [], [], 0
        for end, copy, of in sorted(self.copies, key=lambda one: one[0]):
            made += [*lines[at:end], ""]
            first = len(made) + 1 + len(needed)
            self.marks.append({**of, "from": first, "to": first + len(copy) - 1})
            made, at = [*made, *copy, ""], end
        made += lines[at:]
        where = next(at for at, line in enumerate(made) if line.startswith("use "))
        made[where:where] = needed
        self.text = "\n".join(made)
