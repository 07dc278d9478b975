"""What is read of a proof to try a call of a tactic in its place."""
import argparse

import pytest

from tree import clauses, trials

LINES = """\
use Rattle.std.specs.Prelude.{◌≡◌, ℕ, length}
use Rattle.grid_core.proofs.BoardLemmas.{kept_len, total}

pub record IsKept (n : ℕ) : Type 0 where
  pub same : n ≡ n

lone : (n : ℕ) → n ≡ n
lone n = refl

-- a lemma
pub kept : (n : ℕ) (k : IsKept n) → n ≡ n
kept zero k =
    let
      first = lone zero
    in
    kept_len first k.same
kept (suc n) k =
    kept n (k)
    ∙ total n

sized : (n : ℕ) → n ≡ n
sized n = lone n
""".split("\n")


def found():
    return [*clauses.clauses(LINES)]


def test_clauses_are_those_of_signatures():
    assert [(one.name, one.start, one.end, one.head) for one in found()] == [
        ("lone", 7, 8, "lone n"), ("kept", 11, 16, "kept zero k"), ("kept", 16, 19, "kept (suc n) k"),
        ("sized", 21, 22, "sized n")]


@pytest.mark.parametrize("at, names", [(1, ["lone", "kept_len", "k.same"]), (2, ["total", "kept n (k)"])])
def test_what_a_term_cites(at, names):
    """Lemmas of other files and of this one, facts of a record among the arguments, and its own call; no `let`, no argument."""
    of, clause = clauses.Tables({"IsKept"}, {"same": True}, set()), found()[at]
    term = "\n".join(LINES[clause.start:clause.end])[len(clause.head) + 2:]
    assert clauses.cited(clause, term, {"kept_len", "total", "lone"}, False, of) == names


def test_a_list_that_is_too_long():
    """Facts of records go first, which the tactic reads anyway, and then plain steps. What the kit's list holds is in none."""
    of = clauses.Tables(set(), {}, {"swap"})
    names = ["swap", "lone", "total", "cases_eq", "k.same"]
    assert [clauses.shortened(names, of, most) for most in (4, 3, 2, 1)] == [
        ["lone", "total", "cases_eq", "k.same"], ["lone", "total", "cases_eq"], ["lone", "total"], None]


def test_imports_that_a_call_makes_idle_go():
    """One that was idle before stays: that isn't this script's."""
    old = "\n".join(LINES)
    new = old.replace("kept_len first k.same", "lone zero").replace("\n    ∙ total n", "")
    assert clauses.without_idle(old, new).split("\n")[:2] == ["use Rattle.std.specs.Prelude.{◌≡◌, ℕ, length}", ""]


def test_a_trial_is_a_copy_with_one_call(tmp_path):
    path, words = tmp_path / "Answers.antt", argparse.Namespace(lines=4, both=False, most=7, steps=800, parts=False)
    path.write_text("\n".join(LINES), encoding="utf-8")
    made = trials.Trials(path, clauses.Tables({"IsKept"}, {"same": True}, set()), None, words, None)
    mark, = made.marks
    assert made.text.split("\n")[mark["from"] - 1:mark["to"]] == [
        "trial1 : (n : ℕ) (k : IsKept n) → n ≡ n",
        "trial1 zero k = grind (arith, common_steps, lone, kept_len, k.same) steps 800",
        "trial1 (suc n) k =", "    kept n (k)", "    ∙ total n"]


PARTS = """\
use Rattle.std.specs.Prelude.{◌≡◌, ℕ}
use Rattle.grid_core.proofs.BoardLemmas.{kept_len, total}

pub kept : (n : ℕ) → IsKept n
kept n = elim (cases n) [
  | inl low ↦
      let first = kept_len n in
      first ∙ total n
  | inr high ↦ record {
    same = total n
        ∙ by n
        ∙ kept_len n;
    low = by n;
  }
]
  where
    by : (n : ℕ) → n ≡ n
    by n =
        kept_len n
        ∙ total n
""".split("\n")


def test_parts_of_a_clause():
    """A case, a record behind one with its bracket, a field, and a clause of the `where`; not the field of one line."""
    clause, = clauses.clauses(PARTS)
    assert [(part.start, part.end, part.head.strip(), part.tail) for part in clauses.parts_of(PARTS, clause)
            if part.end - part.start > 1] == [
        (5, 8, "| inl low ↦", ""), (8, 14, "| inr high ↦", ""), (9, 12, "same =", ";"), (17, 20, "by n =", "")]


def test_a_trial_of_a_part_keeps_the_rest(tmp_path):
    path, words = tmp_path / "Answers.antt", argparse.Namespace(lines=3, both=False, most=7, steps=800, parts=True)
    path.write_text("\n".join(PARTS), encoding="utf-8")
    made = trials.Trials(path, clauses.Tables({"IsKept"}, {}, set()), None, words, None)
    mark = next(mark for mark in made.marks if mark["head"].endswith("inl low ↦"))
    assert made.text.split("\n")[mark["from"] - 1:mark["to"]][:4] == [
        "trial2 : (n : ℕ) → IsKept n", "trial2 n = elim (cases n) [",
        "  | inl low ↦ grind (arith, common_steps, kept_len, total) steps 800", "  | inr high ↦ record {"]
