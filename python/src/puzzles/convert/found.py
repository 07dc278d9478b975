"""What the readers of other formats give."""
import xml.etree.ElementTree
from typing import Callable, Iterator, NamedTuple, Optional, Tuple


class Found(NamedTuple):
    """A puzzle of a file: the number of its line, or of XML its own; its ID, or else what is wrong; and its game."""
    number: int
    text: Optional[str]
    fault: Optional[str] = None
    game: str = ""


Reader = Callable[[str], Iterator[Found]]
Answer = Tuple[Optional[str], Optional[str]]  # an ID, or what is wrong


def of_xml(text: str, name: str, game: str, answer: Callable[[xml.etree.ElementTree.Element], Answer]) -> Iterator[Found]:
    """The puzzles of XML: each is an element of a name."""
    if "<!ENTITY" in text:
        yield Found(1, None, "entities of its own")
        return
    try:
        puzzles = [*xml.etree.ElementTree.fromstring(text).iter(name)]
    except xml.etree.ElementTree.ParseError as fault:
        yield Found(1, None, f"no XML: {fault}")
        return
    if not puzzles:
        yield Found(1, None, f"there is no {name} in it")
    for number, puzzle in enumerate(puzzles, 1):
        yield Found(number, *answer(puzzle), game)
