// Calls of the library with a clock and a memory of their own, for a process that can't wait. No part of what is proved.
#ifndef PUZZLES_LIMITED_H
#define PUZZLES_LIMITED_H
#include <stddef.h>
#ifdef __cplusplus
extern "C" {
#endif

enum puzzles_limited_end {
    PUZZLES_DONE,    // the work was done
    PUZZLES_LATE,    // the clock ended it; what it was to write may be half there
    PUZZLES_UNBEGUN  // there was no memory or no clock for it
};

// Does the work on this thread. It makes calls of the library alone, and touches nothing else that has to be whole afterwards.
// What the calls take is at most so many bytes, which are given back at once; a call that wants more has status 5. The
// milliseconds are of this thread's processor time, and 0 is no clock. The signal SIGRTMAX - 1 is taken for this.
enum puzzles_limited_end puzzles_limited(void (*work)(void *), void *given, size_t bytes, unsigned milliseconds);

#ifdef __cplusplus
}
#endif
#endif
