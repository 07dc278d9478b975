"""Where the files lie that aren't Python: in the installed package, or in a checkout beside it."""
import pathlib

HERE = pathlib.Path(__file__).resolve().parent
CHECKOUT = HERE.parents[2]


def page(name: str) -> pathlib.Path:
    """A folder of the page: `web`, or `alone`."""
    inside = HERE / "page" / name
    return inside if inside.is_dir() else CHECKOUT / "page" / name


def library(name: str) -> pathlib.Path:
    """A file of the library for C or for browsers, as library/build.py leaves it in a checkout."""
    return CHECKOUT / "library" / name
