"""Books of puzzles for print."""
