// The heap of the module, which has no C library.
#pragma once
typedef unsigned long u64;

enum { ALIGNMENT = 16 }; // of each block

void *malloc(u64 size);
void *realloc(void *place, u64 size);
void free(void *place);

// Takes all blocks back at once. The memory stays the module's.
void puzzles_clear(void);
