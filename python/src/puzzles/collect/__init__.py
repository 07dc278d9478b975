"""Collections of puzzles, in a table of SQLite."""
