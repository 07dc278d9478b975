"""Games that the collection's programs saved: lines `KEY     :LENGTH:VALUE`, of which GAME, PARAMS and DESC are the puzzle."""
import re
from typing import Dict, Iterator

from .found import Found

NAMES = {"Solo": "solo", "Pattern": "pattern", "Light Up": "lightup", "Tents": "tents"}
LINE = re.compile(r"([A-Z]+) *:(\d{1,9}):")
OF_MAKING = {"solo": "[dmra].*", "pattern": "$", "lightup": "b.*", "tents": "d.*"}  # of PARAMS: what the puzzle doesn't hang on


def read_save(text: str) -> Iterator[Found]:
    """The game of a file."""
    found: Dict[str, str] = {}
    at = 0
    while line := LINE.match(text, at):
        end = line.end() + int(line[2])
        found.setdefault(line[1], text[line.end():end])
        at = end + 1
    game = NAMES.get(found.get("GAME", ""))
    if "SAVEFILE" not in found or not game or not {"PARAMS", "DESC"} <= found.keys():
        yield Found(1, None, f"no saved game of {', '.join(NAMES)}")
    else:
        yield Found(1, f"{re.sub(OF_MAKING[game], '', found['PARAMS'], count=1)}:{found['DESC']}", None, game)
