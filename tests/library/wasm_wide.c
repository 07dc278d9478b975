// Compares library/module/wide.c with the compiler's own numbers of 128 bits, on random ones. Prints how many differ.
#define __multi3 our_product
#define __ashlti3 our_left
#define __lshrti3 our_right
#include "../../library/module/wide.c"

#include <stdio.h>

enum { ROUNDS = 20000000 };

static u64 state = 1;

// A random number of a random length.
static u64 drawn(void) {
    state ^= state << 13;
    state ^= state >> 7;
    state ^= state << 17;
    return state >> (state & 63);
}

int main(void) {
    long differing = 0;
    for (long round = 0; round < ROUNDS; round++) {
        u128 x = (u128)drawn() << 64 | drawn(), y = (u128)drawn() << 64 | drawn();
        int count = round & 127;
        differing += our_product(x, y) != x * y || our_left(x, count) != x << count || our_right(x, count) != x >> count;
    }
    printf("%ld\n", differing);
    return 0;
}
