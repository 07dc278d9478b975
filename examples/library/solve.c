// Solves puzzles by the library: solve GAME ID..    With the library in library/out:
//
//     cc -o solve examples/library/solve.c -I library -L library/out -lpuzzles -Wl,-rpath,"$PWD/library/out"
//
// Prints what the program prints for each ID. The status is the greatest of them.
#include <puzzles.h>
#include <stdio.h>
#include <string.h>

enum { BUDGET = 100000 };
static const char *const GAMES[] = {"solo", "pattern", "lightup", "tents"};

// The number of a game, or one that the library refuses.
static uint8_t game_named(const char *name) {
    uint8_t game = PUZZLES_SOLO;
    while (game <= PUZZLES_TENTS && strcmp(GAMES[game], name)) game++;
    return game;
}

// Prints the answer to an ID. There is room for the longest.
static uint8_t solve(uint8_t game, const char *id) {
    static uint8_t output[PUZZLES_ROOM_SOLVE];
    size_t written;
    uint8_t status = puzzles_solve(game, (const uint8_t *)id, strlen(id), BUDGET, output, sizeof output, &written);
    if (status < PUZZLES_NO_MEMORY) fwrite(output, 1, written, stdout);
    return status;
}

int main(int count, char **words) {
    if (count < 3) {
        fputs("usage: solve GAME ID..\n", stderr);
        return PUZZLES_REFUSED;
    }
    if (puzzles_version() != PUZZLES_VERSION) {
        fputs("solve: a library of another version\n", stderr);
        return PUZZLES_REFUSED;
    }
    uint8_t greatest = PUZZLES_FINE;
    for (int at = 2; at < count; at++) {
        uint8_t status = solve(game_named(words[1]), words[at]);
        if (status > greatest) greatest = status;
    }
    return greatest;
}
