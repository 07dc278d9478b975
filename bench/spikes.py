#!/usr/bin/env python3
"""Lists the functions whose borrow part is large, by what the last checks left in crates/*/out/incremental.

usage: spikes.py [--mb LIMIT] [CRATE ..]

A check makes for each function a part for loans and drops, the file *.Lts. It grows with the number of values that want
dropping times the ways out of the function, and its check grows far faster: 3 MB take some 3 seconds, 6 MB some 10, 10 MB a
minute. LIMIT is 5 if it isn't given; with no CRATE all are looked at. One line is printed for each function above the
limit, the largest first. What a check left of a function that is gone since counts too, until a later check drops it.

The status is 0 if none is above the limit, 1 if some are, and 2 if nothing was checked or the words are wrong.
"""
import argparse
import pathlib
import re
import sys

CRATES = pathlib.Path(__file__).resolve().parent.parent / "crates"
PART = re.compile(r"Rattle-(?P<crate>\w+)-proofs\.(?P<path>.+)\.Lts(-.+)?\.oantt")
MEGABYTE = 1_000_000


def words():
    summary, _, rest = __doc__.partition("\n\nusage: ")
    shape, _, rest = rest.partition("\n\n")
    parser = argparse.ArgumentParser(
        usage=shape, description=f"{summary}\n\n{rest}", formatter_class=argparse.RawDescriptionHelpFormatter
    )
    parser.add_argument("--mb", type=float, default=5.0, metavar="LIMIT", help="megabytes; 5 if left out")
    parser.add_argument("crates", nargs="*", metavar="CRATE", help="a crate's name; all if left out")
    given = parser.parse_args()
    for name in given.crates:
        if not (CRATES / name).is_dir():
            parser.error(f"no crate is called {name}")
    return given


def parts(crate):
    """The newest file of each function's part in a crate, by function."""
    newest = {}
    for file in (crate / "out" / "incremental").glob("*/*.oantt"):
        found = PART.fullmatch(file.name)
        if not found or found["crate"] != crate.name:
            continue
        try:
            status = file.stat()
        except FileNotFoundError:
            continue  # a check that runs has just taken it away
        function = "::".join([crate.name, *found["path"].split(".")])
        newest[function] = max(newest.get(function, (0, 0)), (status.st_mtime, status.st_size))
    return {function: size for function, (_, size) in newest.items()}


def main():
    given = words()
    names = given.crates or sorted(crate.name for crate in CRATES.iterdir() if (crate / "src").is_dir())
    found, unchecked = {}, []
    for name in names:
        of_crate = parts(CRATES / name)
        found.update(of_crate)
        if not of_crate:
            unchecked.append(name)
    if not found:
        print("spikes.py: nothing was checked: run `rt check` or `rt check --test` in a crate first", file=sys.stderr)
        return 2
    if unchecked:
        print(f"nothing was checked of {', '.join(unchecked)}")
    above = sorted(((size, function) for function, size in found.items() if size > given.mb * MEGABYTE), reverse=True)
    for size, function in above:
        print(f"{size / MEGABYTE:5.1f} MB  {function}")
    largest = max(found.values()) / MEGABYTE
    print(f"{len(above) or 'none'} of {len(found)} functions above {given.mb:g} MB; the largest has {largest:.1f}")
    return 1 if above else 0


sys.exit(main())
