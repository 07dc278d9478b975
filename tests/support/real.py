"""Real puzzles for the other scripts: IDs that the collection's own programs make (Debian's package sgt-puzzles)."""
import os
import random
import shutil
import subprocess
import time

from support.composed import composed

SLOW_SIZES = ("4x5", "5x5", "5x6")  # of Solo: minutes for a puzzle


def collected(game, size, more, count, seconds):
    """The IDs of the seeds from 1 to `count`, as many as come in time; `more` stands behind the size. None where the program isn't
    installed."""
    maker = shutil.which(f"sgt-{game}", path=os.environ["PATH"] + ":/usr/games")
    if not maker:
        return []
    ids, end = [], time.monotonic() + seconds
    while len(ids) < count:
        words = [maker, "--generate", "1", f"{size}{more}#{len(ids) + 1}"]
        try:
            done = subprocess.run(words, capture_output=True, check=True, timeout=max(end - time.monotonic(), 0))
        except subprocess.TimeoutExpired:
            break
        ids.append(f"{size}:{done.stdout.decode().strip().split(':', 1)[1]}")
    return ids


def generated(program, game, size, count, seconds):
    """At most `count` IDs that `generate` makes, as many as come in time."""
    ids, end = [], time.monotonic() + seconds
    for seed in range(1, count + 1):
        try:
            words = [program, "generate", game, size, "--seed", str(seed)]
            done = subprocess.run(words, capture_output=True, check=False, timeout=max(end - time.monotonic(), 0))
        except subprocess.TimeoutExpired:
            break
        if done.returncode == 0:
            ids.append(done.stdout.decode().split("\n")[0])
    return ids


def holed(size, count, share=0.55):
    """Puzzles of Solo by holes in a shuffled filling: about this share of its cells is given."""
    tall, wide = [int(side) for side in size.split("x")]  # a block's rows and columns
    count_of = tall * wide
    draws, ids = random.Random(size), []
    for _ in range(count):
        names = draws.sample(range(1, count_of + 1), count_of)
        rows = [band * tall + row for band in range(wide) for row in draws.sample(range(tall), tall)]
        columns = [stack * wide + column for stack in range(tall) for column in draws.sample(range(wide), wide)]
        filling = [names[(wide * (y % tall) + y // tall + x) % count_of] for y in rows for x in columns]
        ids.append(composed("solo", size, [str(number) if draws.random() < share else "" for number in filling]))
    return ids


def some(program, game, size, more, count, seconds):
    """IDs of the collection's programs, and the maker's name. Where these are not installed, or too slow, `generate` makes
    the puzzles, or holes those of Solo that it takes too long for."""
    ids = collected(game, size, more, count, seconds)
    if ids:
        return ids, "collection"
    if game == "solo" and size in SLOW_SIZES:
        return holed(size, count), "holes"
    return generated(program, game, size, count, seconds), "generate"
