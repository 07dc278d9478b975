// A block has its class of size in front of it; there are four classes for each power of two. A block that is given back goes to
// the list of its class. A new one is cut from the end of the memory, which grows.
#include "malloc.h"

typedef struct {
    u64 room, class;
} Head;

typedef struct Free {
    struct Free *next;
} Free;

enum { PAGE = 65536, CLASSES = 160 };
static const u64 MOST = 1ul << 40;

extern char __heap_base; // where the linker ends the module's data
static Free *freed[CLASSES];
static u64 next, end; // what isn't cut yet; next is 0 until the first block

static u64 aligned(u64 size) { return (size + ALIGNMENT - 1) & ~(u64)(ALIGNMENT - 1); }

// The class of a size: 16, 32, 48, 64, and then by fourths of a power of two. Its room is the greatest size of it.
static u64 class_of(u64 size, u64 *room) {
    u64 least = aligned(size ? size : 1);
    if (least <= 64) {
        *room = least;
        return least / 16 - 1;
    }
    u64 top = 63 - __builtin_clzl(least - 1), step = 1ul << (top - 2);
    *room = (least + step - 1) & ~(step - 1);
    return 4 * (top - 5) + (*room - (1ul << top)) / step - 1;
}

static int grow(u64 size) {
    u64 pages = (size + PAGE - 1) / PAGE;
    // a refusal is -1, of 32 bits if the addresses were lowered to these
    if ((int)__builtin_wasm_memory_grow(0, pages) == -1) return 0;
    end += pages * PAGE;
    return 1;
}

// Has so many bytes behind `next`, and some more if there are.
static int reserve(u64 size) {
    if (!next) {
        next = aligned((u64)&__heap_base);
        end = __builtin_wasm_memory_size(0) * PAGE;
    }
    if (end - next >= size) return 1;
    u64 lacking = size - (end - next);
    return (lacking < end / 4 && grow(end / 4)) || grow(lacking);
}

void *malloc(u64 size) {
    if (size > MOST) return 0;
    u64 room, class = class_of(size, &room);
    if (freed[class]) {
        Free *block = freed[class];
        freed[class] = block->next;
        return block;
    }
    if (!reserve(room + sizeof(Head))) return 0;
    Head *head = (Head *)next;
    next += room + sizeof(Head);
    *head = (Head){room, class};
    return head + 1;
}

void free(void *place) {
    if (!place) return;
    Head *head = (Head *)place - 1;
    Free *block = place;
    block->next = freed[head->class];
    freed[head->class] = block;
}

void *realloc(void *place, u64 size) {
    if (!place) return malloc(size);
    Head *head = (Head *)place - 1;
    if (size <= head->room) return place;
    void *moved = malloc(size);
    if (!moved) return 0;
    __builtin_memcpy(moved, place, head->room);
    free(place);
    return moved;
}

void puzzles_clear(void) {
    next = 0;
    for (int class = 0; class < CLASSES; class++) freed[class] = 0;
}
