// The module's heap, compiled for this machine over a memory of its own, beside a list of what each block has to hold. For
// test_heap.py. Ends with a sentence and 1 if something isn't as it should be.
#include <stdint.h>
#include <stdio.h>
#include <string.h>
#include <sys/mman.h>

enum { WIDTH = 65536, PAGES = 60, BLOCKS = 500, ROUNDS = 300000, LARGE = 200000 };

static char *region;
static uint64_t filled; // where the memory ends for now

static int grown(uint64_t pages) {
    if (pages > ((uint64_t)region + (uint64_t)PAGES * WIDTH - filled) / WIDTH) return -1;
    filled += pages * WIDTH;
    return 1;
}

#define malloc heap_malloc
#define realloc heap_realloc
#define free heap_free
#define __builtin_wasm_memory_grow(memory, pages) grown(pages)
#define __builtin_wasm_memory_size(memory) (filled / WIDTH)
#define __heap_base (*region)
#include "../../library/module/malloc.c"
#include "../../library/module/heap.c"

typedef struct {
    unsigned char *place, sign;
    size_t size;
} Block;

static uint64_t state = 88172645463325252u;

static uint64_t draw(uint64_t below) {
    state ^= state << 13, state ^= state >> 7, state ^= state << 17;
    return state % below;
}

static int fault(const char *sentence) {
    puts(sentence);
    return 1;
}

static int is_whole(const Block *block, size_t size) {
    for (size_t at = 0; at < size; at++)
        if (block->place[at] != block->sign) return 0;
    return 1;
}

int main(void) {
    static Block blocks[BLOCKS];
    long refused = 0, taken_ones = 0;
    region = mmap(NULL, (size_t)(PAGES + 1) * WIDTH, PROT_READ | PROT_WRITE, MAP_PRIVATE | MAP_ANONYMOUS, -1, 0);
    if (region == MAP_FAILED) return fault("no memory for the test");
    region += (WIDTH - (uint64_t)region % WIDTH) % WIDTH;
    filled = (uint64_t)region + WIDTH;
    for (long round = 0; round < ROUNDS; round++) {
        Block *block = &blocks[draw(BLOCKS)];
        size_t size = draw(20) ? draw(600) : draw(LARGE);
        if (block->place && !is_whole(block, block->size)) return fault("a block is written over");
        if (block->place && draw(2)) {
            rattle_dealloc(block->place);
            block->place = NULL;
            continue;
        }
        Taken got = block->place ? rattle_realloc(block->place, block->size, size, 8) : rattle_alloc(size, 1u << draw(5));
        if (!got.is_taken) {
            refused++;
            continue; // what was there stays
        }
        if ((uint64_t)got.place % ALIGNMENT) return fault("a block isn't aligned");
        size_t kept = block->place && block->size < size ? block->size : size;
        Block moved = {got.place, block->sign, size};
        if (block->place && !is_whole(&moved, kept)) return fault("what a block held is lost when it grows");
        *block = (Block){got.place, (unsigned char)round, size};
        memset(block->place, block->sign, size);
        taken_ones++;
    }
    for (int at = 0; at < BLOCKS; at++)
        if (blocks[at].place && !is_whole(&blocks[at], blocks[at].size)) return fault("a block is written over at the end");
    if (rattle_alloc(8, 32).is_taken || rattle_realloc(NULL, 0, 8, 64).is_taken) return fault("an alignment that isn't kept");
    if (rattle_alloc((u64)1 << 41, 8).is_taken || rattle_alloc(~(u64)0, 8).is_taken) return fault("more than there is");
    if (!rattle_alloc(0, 8).is_taken) return fault("no block of no bytes");
    puzzles_clear();
    if (rattle_alloc(1, 1).place != region + sizeof(Head)) return fault("not all is given back at once");
    printf("%ld blocks, %ld refused\n", taken_ones, refused);
    return refused == 0; // the memory has to have been full
}
