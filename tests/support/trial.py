"""What the scripts share that try others: what is expected, and a wait with a bound."""
import time


class Wrong(AssertionError):
    """What a case found."""


def expect(stands, words):
    if not stands:
        raise Wrong(words)


def wait_until(is_so, seconds, words):
    end = time.monotonic() + seconds
    while not is_so():
        expect(time.monotonic() < end, f"no end within {seconds} seconds: {words}")
        time.sleep(.01)
