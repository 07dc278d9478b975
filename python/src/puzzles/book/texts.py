"""The texts of a book: those of words/english.json, and in their place those of a file of one's own."""
import contextlib
import html
import json
import pathlib
import string
from typing import Dict, List, Optional, Set, TypedDict, Union, cast

from .._work import REFUSED, Fault

FOLDER = pathlib.Path(__file__).resolve().parent / "words"
ENGLISH = FOLDER / "english.json"
MOST_BYTES = 1_000_000
Json = Union[str, List["Json"], Dict[str, "Json"]]
ByWord = Dict[str, str]  # of a game, a level or a grade
Texts = TypedDict("Texts", {  # those of words/english.json
    "language": str, "title": str, "one puzzle": str, "puzzles": str, "contents": str, "solutions": str, "range": str,
    "page of solutions": str, "pages of solutions": str, "and": str, "heading": str, "heading of any": str,
    "heading of a file": str, "cells": str, "how": str, "example": str, "the puzzle": str, "its solution": str,
    "how to begin": str, "what the grades mean": str, "one solution": str, "by the grade": str, "names": ByWord,
    "other names": ByWord, "levels": ByWord, "grades": ByWord, "rules": Dict[str, List[str]], "beginnings": ByWord,
    "meanings": Dict[str, ByWord], "meaning of a search": str, "meanings of levels": ByWord})


def load(name: Optional[str]) -> Texts:
    """The texts by a file's name, or by the name of one in words/; escaped for HTML."""
    texts: Dict[str, Json] = json.loads(ENGLISH.read_text(encoding="utf-8"))
    if name:
        path = FOLDER / f"{name}.json" if (FOLDER / f"{name}.json").exists() else pathlib.Path(name)
        with open(path, "rb") as file:
            content = file.read(MOST_BYTES)
        try:
            replaced(texts, json.loads(content), str(path))
        except (ValueError, RecursionError) as fault:
            raise Fault(f"{path} is no JSON: {fault}", REFUSED) from None
    return cast(Texts, escaped(texts))


def replaced(texts: Dict[str, Json], own: object, place: str) -> None:
    """Puts texts in the place of others. Each must be one that a book has."""
    if not isinstance(own, dict):
        raise Fault(f"{place} must be an object", REFUSED)
    for name, text in own.items():
        here = f"{place}: {name}"
        if name not in texts:
            raise Fault(f"{here}: a book has no such text: it has {', '.join(texts)}", REFUSED)
        model = texts[name]
        if isinstance(model, dict):
            replaced(model, text, here)
        elif isinstance(model, list):
            if not isinstance(text, list) or not text or not all(isinstance(one, str) for one in text):
                raise Fault(f"{here} must be a list of texts", REFUSED)
            texts[name] = text
        else:
            texts[name] = checked(text, model, here)


def fields(text: str) -> Set[str]:
    return {field for _, field, _, _ in string.Formatter().parse(text) if field is not None}


def checked(text: object, model: str, place: str) -> str:
    """A text with the fields that its model may have."""
    allowed = fields(model) | ({"width", "height"} if "size" in fields(model) else set())
    with contextlib.suppress(ValueError):
        if isinstance(text, str) and fields(text) <= allowed:
            return text
    names = ", ".join(f"{{{name}}}" for name in sorted(allowed)) or "none"
    raise Fault(f"{place} must be a text with no fields but {names}", REFUSED)


def escaped(texts: Json) -> Json:
    if isinstance(texts, dict):
        return {name: escaped(text) for name, text in texts.items()}
    return [*map(escaped, texts)] if isinstance(texts, list) else html.escape(texts)
