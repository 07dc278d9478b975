"""The clauses of proofs, what their terms cite, and a call of a tactic in a clause's place.

No script: shorter.py reads it. A clause is what stands behind one `name patterns =`.
"""
import dataclasses
import pathlib
import re

TOP = pathlib.Path(__file__).resolve().parents[2]
NAME = r"[^\s(){}:=λ|,;]+"
LISTS, WIDTH = (("arith", "common_steps"), ("arith",)), 160  # of the kit's own lists, and columns of a call
NO_FACTS = set("""refl sym ap tt subst absurd rw at in let elim inl inr omega grind simp cc search arith common_steps record
    where true false suc zero unfolding fun_ext cond if then else not length take drop map filter slice_index min max get_or by
    replicate append""".split())
PLAIN = set("""cases_eq cases_Bool cases_lt true≢false false≢true false_from_ne_true and_parts or_parts or_cases eqb eq-eqb
    eqb-true ne_eqb lt-ltb le-ltb ltb-true nat_lt nat_le if_below cond_both bool_byte elements""".split())
OF_GOALS = re.compile(r"\.(ensures|true|false|invariant|requires|auto|is|was|type_inv)(\.|$)")
IS_FACT = re.compile(r"\(?(?!List)[A-Z][a-z]+[A-Z]|Is|Are|Has|Fills|All")
NO_CLAUSE = re.compile(r"^ *(pub |abbrev|unfoldable|record|data|use|module|let |\||\()")
LONGEST_CALL = 100


@dataclasses.dataclass(frozen=True)
class Tables:
    """Of all crates: names that stand for no fact; which fields of records are facts; what the kit's `common_steps` holds."""
    names: set
    facts: dict
    common: set


@dataclasses.dataclass(frozen=True)
class Clause:
    """Its lines, from the first to the end; the depth, name and head of what stands before ` =`; the line of its signature."""
    start: int
    end: int
    depth: int
    name: str
    head: str
    sign: int


@dataclasses.dataclass(frozen=True)
class Part:
    """What a call can stand for: its lines, what stands before the call and behind it, and the term."""
    start: int
    end: int
    head: str
    tail: str
    term: str


def tables(common):
    names, facts = set(), {}
    for path in TOP.glob("crates/*/*/**/*.antt"):
        text = path.read_text(encoding="utf-8")
        names.update(re.findall(r"(?m)^ *(?:abbrev|unfoldable)(?: pub)? ([^\s:]+) :", text))
        names.update(re.findall(r"(?m)^ *(?:pub )?(?:record|data) ([^\s({:]+)", text))
        for field, of in re.findall(r"(?m)^ +(?:pub )?([a-z_]\w*) : (.+)$", text):
            facts[field] = facts.get(field, False) or bool(re.search(r"[≡≤<≢]", of) or IS_FACT.match(of))
    return Tables(names, facts, common)


def rule_sets(text):
    """What each `ruleset` of the kit's file holds, those that it names among them."""
    sets = {m[1]: m[2].split(", ") for m in re.finditer(r"(?m)^pub ruleset (\S+) = \(([^)]*)\)", text)}

    def members(name):
        return set().union(*(members(one) if one in sets else {one} for one in sets[name]))
    return {name: members(name) for name in sets}


def imported(text):
    """The names that a file takes from others."""
    lists = re.findall(r"(?m)^(?:pub )?use [^{\n]*\{([^}]*)\}", text)
    return {name.strip().split(" as ")[-1] for names in lists for name in names.split(",")}


def indent(line):
    return len(line) - len(line.lstrip())


def head_end(line):
    """Where a clause's ` =` stands, if it has one: not that of an argument by name, as in `{n = n}`."""
    depth = 0
    for at, sign in enumerate(line):
        depth += (sign in "({[") - (sign in ")}]")
        if sign == "=" and not depth and line[at - 1:at] == " " and line[at + 1:at + 2] in ("", " "):
            return at - 1
    return None


def clause_end(lines, at, depth):
    """The line behind the clause that begins before a line."""
    while at < len(lines):
        if not lines[at].strip():
            later = next((k for k in range(at, len(lines)) if lines[k].strip()), None)
            if later is None or indent(lines[later]) <= depth:
                break
            at = later
        elif indent(lines[at]) <= depth and lines[at].strip()[0] not in "]})":
            break
        else:
            at += 1
    return at


def clauses(lines):
    """The clauses of declarations that have a signature."""
    signed, at = {}, 0
    while at < len(lines):
        line = lines[at]
        found = re.match(rf"^( *)(?:pub )?({NAME}) : ", line)
        if found and not re.match(r"^ *(pub )?(record|data|use|module|abbrev|unfoldable)\b", line):
            signed[found[2], len(found[1])] = at
        found, head = re.match(r"^( *)([^\s(){}:=λ|,;→]+)( |$)", line), head_end(line)
        if found and head is not None and not NO_CLAUSE.match(line) and (found[2], len(found[1])) in signed:
            depth, name = len(found[1]), found[2]
            end = clause_end(lines, at + 1, depth)
            yield Clause(at, end, depth, name, line[:head], signed[name, depth])
            at = end
        else:
            at += 1


def is_whole(term):
    """Whether each bracket of a term is closed in it."""
    return all(term.count(sign) == term.count(other) for sign, other in ("()", "[]", "{}"))


def part_end(lines, at, clause):
    """The line behind what begins at a line of a clause, by depth; a bracket that it opens is closed at its own depth."""
    end, depth = at + 1, indent(lines[at])
    while end < clause.end and (not lines[end].strip() or indent(lines[end]) > depth):
        end += 1
    if end < clause.end and indent(lines[end]) == depth and lines[end].strip()[0] in "]})" and not is_whole("\n".join(lines[at:end])):
        end += 1
    while not lines[end - 1].strip():
        end -= 1
    return end


def parts_of(lines, clause):
    """The parts of a clause's term: what stands behind `↦`, a field of a record, and a clause of a declaration of its `where`."""
    signed = set()
    for at in range(clause.start + 1, clause.end):
        if found := re.match(rf"^( *)({NAME}) : ", lines[at]):
            signed.add((found[2], len(found[1])))
            continue
        case, field = re.match(r"^( *\| [^↦]*↦)( |$)", lines[at]), re.match(r"^( +[a-z_]\w* =)( |$)", lines[at])
        named_so = re.match(rf"^( *)({NAME})( |$)", lines[at])
        end = part_end(lines, at, clause)
        if named_so and (named_so[2], len(named_so[1])) in signed and head_end(lines[at]) is not None:
            head, tail = lines[at][:head_end(lines[at])] + " =", ""
        elif case or field:
            head, tail = (case or field)[1], ";" if lines[end - 1].endswith(";") else ""
        else:
            continue
        term = "\n".join([lines[at][len(head):], *lines[at + 1:end]])
        if is_whole(term) and (case or tail or not field or named_so and (named_so[2], len(named_so[1])) in signed):
            yield Part(at, end, head, tail, term)


def words_of_call(rest):
    """What stands behind a name up to the end of its call."""
    depth = end = 0
    while end < len(rest):
        if rest[end] in "([{":
            depth += 1
        elif rest[end] in ")]}":
            depth -= 1
            if depth < 0:
                break
        elif depth == 0 and (rest[end] in ",;\n∙" or rest.startswith((" in ", " at "), end)):
            break
        end += 1
    return re.sub(r"\s+in$", "", rest[:end].strip())


def calls_of_itself(name, term, bound):
    for found in re.finditer(rf"(?<![\w.-]){re.escape(name)}(?![\w-])", term):
        words = words_of_call(term[found.end():])
        has_bound = any(re.search(rf"(?<![\w-]){re.escape(word)}(?![\w-])", words) for word in bound)
        if words and len(words) < LONGEST_CALL and not has_bound:
            yield f"{name} {words}"


def bound_in(term):
    """The names that a term binds: by a declaration, a `let`, a λ or a case."""
    bound = set(re.findall(rf"(?m)^ +(?:pub )?({NAME}) : ", term)) | set(re.findall(r"let ([^\s=:]+)", term))
    for group in re.findall(r"λ ([^.]*)\.", term) + re.findall(r"\| *\w+ ([^↦]*)↦", term):
        bound.update(re.findall(r"[^\s(){}:,]+", group))
    return bound


def cited(clause, term, known, is_answer, of):
    """What a clause's term cites, as a list for `grind`: lemmas, facts of its arguments' records, and its own calls."""
    bound = bound_in(term)
    patterns = set(re.findall(r"[^\s(){},]+", clause.head.strip()[len(clause.name):]))
    lemmas, fields = [], []
    for word in dict.fromkeys(re.findall(r"[^\s(){}\[\],;]+", term)):
        if word in NO_FACTS or word in of.names or word in bound or word == clause.name or not re.match(r"[a-z_]", word):
            continue
        if "." not in word:
            if word in known and word not in patterns:
                lemmas.append(word)
        elif word.split(".")[0] in patterns and not re.search(r"\.\d+$", word):
            if is_answer and word.startswith("c."):
                is_fact = bool(OF_GOALS.search(word)) and not word.endswith((".now", ".result"))
            else:
                is_fact = of.facts.get(word.split(".")[-1], False)
            fields += [word] if is_fact else []
    return [*lemmas, *fields, *dict.fromkeys(calls_of_itself(clause.name, term, bound))]


def shortened(facts, of, most):
    """A list of at most so many names, or None: all; or without facts of records, which `grind` reads anyway; or without plain
    steps."""
    facts = [fact for fact in facts if fact not in of.common]
    if len(facts) > most:
        facts = [fact for fact in facts if "." not in fact.split(" ")[0]]
    if len(facts) > most:
        facts = [fact for fact in facts if fact not in PLAIN]
    return facts if len(facts) <= most else None


def one_call(head, names, tail=""):
    """A part as one call, on a line or on two: `rt fmt` gives each name of a broken list a line of its own."""
    call = f"grind ({', '.join(names)}){tail}"
    return [f"{head} {call}"] if len(head) + 1 + len(call) <= WIDTH else [head, " " * (indent(head) + 4) + call]


def named(names):
    """The names of a list besides the kit's own two."""
    return [name for name in names if name not in LISTS[0]]


def needs(known):
    """The imports of the kit's own two lists that a file lacks."""
    places = {"common_steps": "Rattle.std.proofs.lemmas.Grind", "arith": "Rattle.std.proofs.Common"}
    return [f"use {module}.{{{word}}}" for word, module in places.items() if word not in known]


def without_idle(old, new):
    """The new text without the imports that only the old one had a use for."""
    was, now = (set(re.findall(r"[^\s(){}\[\],;.⟦⟧]+", re.sub(r"(?m)^(pub )?use .*$", "", text))) for text in (old, new))

    def stays(name):
        parts = {part for part in name.split("◌") if part}
        return not parts <= was or parts <= now

    def kept(found):
        names = [name for name in found[2].split(", ") if stays(name)]
        return f"{found[1]}{{{', '.join(names)}}}\n" if names else ""
    return re.sub(r"(?m)^(use [^{\n]*)\{([^}\n]*)\}\n", kept, new)
