// The three calls by which compiled Rattle code takes memory and gives it back, over malloc.
#include "malloc.h"

// Whether there was memory, and where: never null, also if there was none.
typedef struct {
    u64 is_taken;
    void *place;
} Taken;

static char nowhere;

static Taken taken(void *place) { return (Taken){place != 0, place ? place : &nowhere}; }

// A request of no bytes takes as many as its alignment. One for a greater alignment than all blocks have gets none.
Taken rattle_alloc(u64 size, u64 alignment) {
    return taken(alignment > ALIGNMENT ? 0 : malloc(size ? size : alignment));
}

Taken rattle_realloc(void *place, u64 old_size, u64 size, u64 alignment) {
    (void)old_size;
    return taken(alignment > ALIGNMENT ? 0 : realloc(place, size ? size : alignment));
}

void rattle_dealloc(void *place) { free(place); }
