"""The class `puzzles.library.Puzzles`, which many threads may use: each gets the answer to what it asked."""
import ctypes
import subprocess
import threading

import pytest

from puzzles.library import Puzzles

# Says the ID, and not before two calls have said theirs.
MEETING = """
#include <pthread.h>
#include <stdbool.h>
#include <stdint.h>
#include <string.h>
static pthread_barrier_t both;
__attribute__((constructor)) static void begin(void) { pthread_barrier_init(&both, 0, 2); }
uint8_t puzzles_solve(uint8_t game, const char *id, size_t length, uint64_t budget, char *output, size_t room, size_t *written) {
    memcpy(output, id, length);
    *written = length;
    pthread_barrier_wait(&both);
    return 0;
}
void puzzles_solve_each(void) {}
void puzzles_check(void) {}
void puzzles_grade(void) {}
void puzzles_generate(void) {}
"""
IDS = {b"2x2:2c": (0, b"one\n2O\nO.\n"), b"2x2:1c": (1, b"none\n"), b"no": (2, b"refused: no colon\n")}


def in_threads(count, act):
    threads = [threading.Thread(target=act, args=(number,)) for number in range(count)]
    for thread in threads:
        thread.start()
    for thread in threads:
        thread.join()


@pytest.mark.needs("cc")
def test_a_room_for_each_thread(tmp_path):
    """Two calls at once, whose answers are both written before either is read."""
    source, built = tmp_path / "meeting.c", tmp_path / "libmeeting.so"
    source.write_text(MEETING)
    subprocess.run(["cc", "-shared", "-fPIC", "-o", built, source, "-lpthread"], check=True)
    puzzles, texts = Puzzles(built), [b"the first one", b"another one"]
    found = [None, None]

    def ask(number):
        found[number] = puzzles.solve("solo", texts[number])
    in_threads(2, ask)
    assert found == [(0, text) for text in texts]


def test_answers_in_threads(library):
    """Eight threads at one object, each with its own texts."""
    puzzles, texts, wrong = Puzzles(library), sorted(IDS), []

    def ask(number):
        for at in range(300):
            text = texts[(at + number) % len(texts)]
            found = puzzles.solve("lightup", text)
            if found != IDS[text]:
                wrong.append((text, found))
    in_threads(8, ask)
    assert not wrong


def test_a_room_that_grows(library):
    """An answer that is longer than the room is asked for again, and the next one is right too."""
    puzzles = Puzzles(library)
    puzzles.mine.room = ctypes.create_string_buffer(1)
    assert puzzles.solve("pattern", b"5x1:1/1//1/1/2.2") == (0, b"one\n##.##\n")
    assert puzzles.solve("lightup", b"2x2:1c") == IDS[b"2x2:1c"]
