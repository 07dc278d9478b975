#!/usr/bin/env python3
"""Counts the files and lines of Tents for docs/FIFTH_GAME.md, which says what a game that is new would copy.

usage: fifth_game.py [--write]

Prints each step of the table with its files and lines, and what isn't so in the document; the exit status is 1 if anything is.
It has to name each file of the crates ARMS, beside those of Tents alone, in which Tents have a case.
With --write the document gets the numbers.
"""
import argparse
import pathlib
import re
import sys

TOP = pathlib.Path(__file__).resolve().parents[2]
DOCUMENT = TOP / "docs" / "FIFTH_GAME.md"

# The files that Tents alone has, by the number of the step; each file of Tents stands in one of them.
STEPS = {
    "2": ("gameid_core/src/tents/puzzle.rt", "gameid_core/src/tents.rt", "gameid_core/proofs/tents/puzzle/**/*"),
    "3": ("gameid_core/src/tents/id.rt", "gameid_core/specs/TentsText.antt", "gameid_core/proofs/Tents*.antt",
          "gameid_core/proofs/tents/id/**/*"),
    "4": ("gameid_core/src/tents/grids.rt", "gameid_core/proofs/tents/grids/**/*"),
    "5": ("fields_core/src/tents.rt", "fields_core/src/tents/fault.rt", "fields_core/specs/Tents.antt",
          "fields_core/specs/TentSolutions.antt"),
    "6": ("fields_core/src/tents/cells.rt", "fields_core/src/tents/check.rt", "fields_core/src/tents/pairs.rt",
          "fields_core/src/tents/touch.rt", "fields_core/specs/TentPairs.antt", "fields_core/specs/TentTouching.antt",
          "fields_core/proofs/tents/check/**/*", "fields_core/proofs/tents/pairs/**/*", "fields_core/proofs/tents/touch/**/*",
          "fields_core/proofs/TentRuleLemmas.antt"),
    "7": ("fields_core/src/tents/houses.rt", "fields_core/src/tents/rules.rt", "fields_core/src/tents/tent_house.rt",
          "fields_core/specs/TentHouses.antt", "fields_core/proofs/tents/houses/**/*",
          "fields_core/proofs/tents/rules/TentsPuzzleCountGame/**/*", "fields_core/proofs/TentCounting.antt"),
    "8": ("fields_core/src/planes/tents.rt", "fields_core/src/planes/tents/*", "fields_core/specs/TentTrees.antt",
          "fields_core/specs/TentWaits.antt", "fields_core/proofs/planes/tents/**/*",
          "fields_core/proofs/tents/rules/TentsPuzzleGridGame/**/*", "fields_core/proofs/tents/rules/TentsPuzzlePlaneGame/**/*",
          "fields_core/proofs/TentCompleting.antt", "fields_core/proofs/TentLines.antt", "fields_core/proofs/TentSquareVisits.antt",
          "fields_core/proofs/TentTouching.antt", "fields_core/proofs/TentTree*.antt", "fields_core/proofs/TentWaits.antt"),
    "9": ("maker_core/src/tents.rt", "maker_core/src/tents/*", "maker_core/specs/TentMaking.antt", "maker_core/specs/TentSteps.antt",
          "maker_core/proofs/TentsSolved.antt", "maker_core/proofs/tents/**/*",
          "maker_core/proofs/laws/fillings_of_tents_are_solutions/*"),
    "10": ("commands/src/games/tents.rt", "commands/specs/TentsFacts.antt", "commands/proofs/games/tents/**/*"),
}
ARMS = ("core_tests", "commands", "puzzles", "puzzles_c")
CASE = re.compile(r"(?<![A-Za-z])[Tt]ents?(?![a-z])|(?<![A-Za-z])Tents?[A-Z]|[a-z]Tents")
NO_CASE = re.compile(r" *(--|//|(pub(\(crate\))? |ghost |unfoldable )*use |(pub(\(crate\))? )?mod )")


def counted(patterns):
    """How many files there are of these, and how many lines they have."""
    files = {file for pattern in patterns for file in (TOP / "crates").glob(pattern) if file.is_file()}
    return len(files), sum(len(file.read_text(encoding="utf-8").splitlines()) for file in files)


def left_out():
    """The files of Tents, by their names, that no step has."""
    known = {file for patterns in STEPS.values() for pattern in patterns for file in (TOP / "crates").glob(pattern)}
    for file in sorted((TOP / "crates").rglob("*.*t*")):
        place = file.relative_to(TOP / "crates")
        is_code = file.suffix in (".rt", ".antt") and place.parts[1] != "out"
        if is_code and file not in known and re.search(r"(?i)(^|[/_])tents?([A-Z_/.]|$)", str(place)):
            yield f"{place}: a file of Tents of no step"


def unnamed(text):
    """The files of the crates ARMS with a case of Tents beside its own files, which the document doesn't name: a file of the
    kit's own name by its folder, the function."""
    known = {file for patterns in STEPS.values() for pattern in patterns for file in (TOP / "crates").glob(pattern)}
    for file in sorted(file for crate in ARMS for file in (TOP / "crates" / crate).rglob("*.*t*")):
        parts = file.relative_to(TOP / "crates").parts
        if file.suffix not in (".rt", ".antt") or parts[1] not in ("src", "specs", "proofs") or file in known or file.stem == "Lib":
            continue
        lines = [line for line in file.read_text(encoding="utf-8").splitlines() if not NO_CASE.match(line)]
        name = file.parent.name if file.stem in ("Answers", "Invariants") else file.stem
        if any(CASE.search(line) for line in lines) and not re.search(rf"\b{name}\b", text):
            yield f"{'/'.join(parts)}: it has a case of Tents, and docs/{DOCUMENT.name} doesn't name it"


def with_counts(text):
    """The document with the numbers of the tree."""
    total = [0, 0]
    for step, patterns in STEPS.items():
        counts = counted(patterns)
        total = [total[0] + counts[0], total[1] + counts[1]]
        row = re.compile(rf"(?m)^(\| {step}\. .* \|) \d+, [\d,]+((?:, and arms[^|]*)? \|)$")
        if len(row.findall(text)) != 1:
            raise ValueError(f"{DOCUMENT.name} has no row of step {step} with numbers at its end")
        text = row.sub(rf"\g<1> {counts[0]}, {counts[1]:,}\g<2>", text)
    whole = re.compile(r"it has \d+ files of its own, with\s[\d,]+ lines")
    if len(whole.findall(text)) != 1:
        raise ValueError(f"{DOCUMENT.name} doesn't say how many files of its own Tents has")
    return whole.sub(lambda found: re.sub(r"[\d,]+ lines", f"{total[1]:,} lines", re.sub(r"has \d+", f"has {total[0]}", found[0])), text)


def faults():
    """What isn't so in the document."""
    text = DOCUMENT.read_text(encoding="utf-8")
    if text != with_counts(text):
        yield f"docs/{DOCUMENT.name}: numbers that aren't those of the tree: python/run tests/tree/fifth_game.py --write mends them"
    yield from left_out()
    yield from unnamed(text)


def main():
    form = argparse.ArgumentParser(description=__doc__, formatter_class=argparse.RawDescriptionHelpFormatter)
    form.add_argument("--write", action="store_true", help="write the numbers into the document")
    words = form.parse_args()
    try:
        if words.write:
            DOCUMENT.write_text(with_counts(DOCUMENT.read_text(encoding="utf-8")), encoding="utf-8")
        for step, patterns in STEPS.items():
            print(f"step {step}: {counted(patterns)[0]} files, {counted(patterns)[1]:,} lines")
        found = [*faults()]
    except (OSError, ValueError) as fault:
        sys.exit(f"fifth_game.py: {fault}")
    print("\n".join([*found, f"{len(found)} faults"]))
    return 1 if found else 0


if __name__ == "__main__":
    sys.exit(main())
