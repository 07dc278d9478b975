"""Other programs' formats of puzzles."""
