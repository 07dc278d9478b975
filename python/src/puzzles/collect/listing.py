"""Prints puzzles of a table: their IDs, or rows as CSV or JSON."""
import csv
import json
import sqlite3
import sys
from typing import Iterable

COLUMNS = ["id", "game", "size", "verdict", "grade", "trials", "effort", "clues", "times", "source", "form"]


def print_rows(rows: Iterable[sqlite3.Row], kind: str) -> None:
    """Rows as lines: `ids`, `csv` with a head, or `json`, an object a line."""
    if kind == "ids":
        for row in rows:
            print(row["id"])
    elif kind == "json":
        for row in rows:
            print(json.dumps({name: row[name] for name in COLUMNS}))
    else:
        out = csv.writer(sys.stdout, lineterminator="\n")
        out.writerow(COLUMNS)
        out.writerows([row[name] for name in COLUMNS] for row in rows)
