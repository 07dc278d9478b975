/* The program `puzzles` as a library: each call answers as the program does, in memory of the caller's.
 *
 * The answer. `output` has `room` bytes for it, and `*written` becomes its length. There is no zero byte behind a text, and the
 * bytes behind the answer stay as they were. The same arguments have the same answer each time, in this version: a seed too.
 *
 * What the caller owes, since no call can see it:
 * - A text may be null if its length is 0, and `output` if `room` is 0. No other pointer is null. `written` is aligned.
 * - `output` and `*written` overlap nothing else that is passed. During a call no other thread writes the texts, or touches
 *   `output` and `*written`. Several threads may call at a time, and may read the same texts. A call keeps nothing for the next.
 * - No call is made from a signal handler, nor from the forked child of a process with threads. A call calls the C library's
 *   `malloc`, `realloc` and `free`, and nothing else of the system.
 * - There are 64 KiB of stack. The processor has x86-64-v2.
 *
 * What bounds a call. It can't be cut off, and no thread can be stopped: a call that a clock has to end belongs in a process.
 * `check` makes no search. `solve` makes at most `budget` trials for each ID, and `grade` too. `generate` makes a search for each
 * try, and one for each clue of the puzzle that it hands out: the cells of Solo, the black cells of Light Up. So it makes at most
 * (tries + clues) * budget trials. For a try there is also a walk of at most budget / 10 visits or sweeps. With the program's own
 * budget and tries Solo 5x5 took more than 150 seconds, and with a budget of 100 less than two.
 *
 * Where it differs from the program. A text may be any bytes: a size that isn't of UTF-8 is refused as a size here, and the
 * program refuses it as words. A number that is no game's, and more than 100 for `black` in any game, are refused as words.
 */
#ifndef PUZZLES_H
#define PUZZLES_H
#include <stddef.h>
#include <stdint.h>
#ifdef __cplusplus
extern "C" {
#endif

/* The version 0.1: a hundred times the first part, and the second. A seed has the same puzzle within a version. */
#define PUZZLES_VERSION 1

/* The version of the library that is loaded. With another first part its calls may take other arguments. */
uint32_t puzzles_version(void);

enum puzzles_game { PUZZLES_SOLO, PUZZLES_PATTERN, PUZZLES_LIGHTUP, PUZZLES_TENTS };

/* From 0 to 4 the whole answer is in `output`. After 5 to 7 `output` is as it was, and after 5 and 6 `*written` is 0. */
enum puzzles_status {
    PUZZLES_FINE,      /* one solution; a correct grid; a grade that names a rule set or a search; a puzzle that was made */
    PUZZLES_WRONG,     /* no solution; a wrong grid */
    PUZZLES_REFUSED,   /* the first fault of the ID, the size, the grid or the numbers */
    PUZZLES_SEVERAL,   /* two solutions or more */
    PUZZLES_GAVE_UP,   /* the budget or the tries were used up */
    PUZZLES_NO_MEMORY, /* there was too little memory */
    PUZZLES_BROKEN,    /* the lines or the grid have more than 4,294,963,200 bytes, and weren't read to their end */
    PUZZLES_TOO_SMALL  /* the answer has `*written` bytes, more than `room`: call again with so many, until it isn't 7 */
};

/* The most bytes of an answer, so that no caller has to call again: two grids of 120 by 120 cells; a sentence; an ID and a
 * grid. A grade with a trace has a line for each visit, and no such bound. */
enum { PUZZLES_ROOM_SOLVE = 29049, PUZZLES_ROOM_CHECK = 64, PUZZLES_ROOM_GRADE = 64, PUZZLES_ROOM_GENERATE = 80057 };

/* As `puzzles solve GAME ID --budget BUDGET`. The program's own budget is 100,000. */
uint8_t puzzles_solve(uint8_t game, const uint8_t *id, size_t id_length, uint64_t budget,
                      uint8_t *output, size_t room, size_t *written);

/* As `puzzles solve GAME --budget BUDGET`, with an ID in each line. Each line has at most PUZZLES_ROOM_SOLVE bytes of answer,
 * some 58 times its own. All answers are gathered before they are put, so as much memory is taken besides. */
uint8_t puzzles_solve_each(uint8_t game, const uint8_t *lines, size_t lines_length, uint64_t budget,
                           uint8_t *output, size_t room, size_t *written);

/* As `puzzles check GAME ID` says it of a grid. */
uint8_t puzzles_check(uint8_t game, const uint8_t *id, size_t id_length, const uint8_t *grid, size_t grid_length,
                      uint8_t *output, size_t room, size_t *written);

/* As `puzzles grade GAME ID --budget BUDGET`, with `--trace` unless `traced` is 0: any other number is as good. */
uint8_t puzzles_grade(uint8_t game, const uint8_t *id, size_t id_length, uint64_t budget, uint8_t traced,
                      uint8_t *output, size_t room, size_t *written);

/* As `puzzles generate GAME SIZE --seed SEED --budget BUDGET --tries TRIES --black BLACK`. The program's own tries are 1,000,
 * and its black cells 50 per cent for Pattern and 20 for Light Up. In Solo and Tents `black` says nothing, up to 100. */
uint8_t puzzles_generate(uint8_t game, const uint8_t *size, size_t size_length, uint64_t seed, uint64_t budget,
                         uint32_t tries, uint8_t black, uint8_t *output, size_t room, size_t *written);

#ifdef __cplusplus
}
#endif
#endif
