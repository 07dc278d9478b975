"""What is told of the documents and of the words that definitions use."""
from tree import documents

FIRST = "-- whether a cell is taken\nabbrev pub is_taken : List ℕ → ℕ → Bool\nis_taken g i = nat_lt 0 (slice_index g i)\n"
SECOND = "module _ (p : Layout) where\n  pub record IsWhole : Type 0 where\n    pub is_taken : p.w ≡ p.h\n"
THIRD = "unfoldable pub is_taken : ℕ → Bool\nis_taken n = n == 0\n"


def test_a_word_with_two_definitions_is_told():
    """A field of a record is no definition of its name."""
    assert [*documents.doubles({"a": FIRST, "b": SECOND}, {})] == []
    assert [*documents.doubles({"a": FIRST, "b": SECOND, "c": THIRD}, {})] == [
        "is_taken has 2 definitions: a, c. One word has one meaning"]


def test_a_step_of_a_run_names_its_place(tmp_path, monkeypatch):
    """A function that went elsewhere is told; one of a macro's form, or of a type, is looked for by its own name."""
    (tmp_path / "docs").mkdir()
    (tmp_path / "docs/ARCHITECTURE.md").write_text(
        "## The way of a run\n\n| Step | By | In |\n|---|---|---|\n"
        "| 1. Begins | `main`, `by_game!` | `crates/puzzles/src/main.rt` |\n| 2. Ends | `Store::solve` | `crates/engine_core/src` |\n")
    for place, text in (("puzzles/src/main.rt", "fn main() { by_game!(x) }"), ("engine_core/src/a/store.rt", "fn solved() {}")):
        file = tmp_path / "crates" / place
        file.parent.mkdir(parents=True)
        file.write_text(text)
    monkeypatch.setattr(documents, "TOP", tmp_path)
    assert [*documents.steps()] == ["docs/ARCHITECTURE.md: step 2: no solve in crates/engine_core/src"]


def test_the_list_of_such_words_gets_shorter():
    """One that is known isn't told, and one that has been mended goes from the list."""
    known = {"is_taken": "of a cell; of a number"}
    assert [*documents.doubles({"a": FIRST, "c": THIRD}, known)] == []
    assert [*documents.doubles({"a": FIRST}, known)] == ["TWICE of documents.py: is_taken has one definition, or none: take it out"]
