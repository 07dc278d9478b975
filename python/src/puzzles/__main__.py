"""`python3 -m puzzles TOOL ..`: the tools that are installed as puzzles-TOOL."""
import importlib
import os
import sys

TOOLS = {"book": "puzzles.book.__main__", "collect": "puzzles.collect.__main__", "convert": "puzzles.convert.__main__",
         "drawing": "puzzles.book.drawing", "ids": "puzzles.ids.__main__", "page": "puzzles.page.__main__",
         "page-static": "puzzles.page.static"}


def main() -> int:
    if len(sys.argv) < 2 or sys.argv[1] not in TOOLS:
        print(f"the tools are {', '.join(TOOLS)}", file=sys.stderr)
        return 2
    name = sys.argv[1]
    sys.argv = [os.path.join(os.path.dirname(sys.argv[0]), f"puzzles-{name}"), *sys.argv[2:]]
    importlib.import_module(TOOLS[name]).run()
    return 0


if __name__ == "__main__":
    sys.exit(main())
