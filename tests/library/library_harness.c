// What `library.py` can't see from Python: harness stack | harness within BYTES | harness memory, with a call on each line of
// the input: its name, the game's number, the budget and the ID.
//
// stack: makes each call on a painted stack, and prints the most bytes that one of them used.
// within: makes each call on a stack of so many bytes, and prints how many were answered.
// memory: makes each call with no memory to be had, and once more with memory, and prints how many there were of each.
#include <puzzles.h>
#include <pthread.h>
#include <stdio.h>
#include <stdlib.h>
#include <string.h>
#include <sys/resource.h>

enum { STACK = 1 << 20, ROOM = 1 << 20, LONGEST = 1 << 17 };
static const unsigned char PAINT = 0xa5;

typedef struct {
    char name[16];
    unsigned game;
    unsigned long budget;
    const uint8_t *text;
    size_t length, written;
    uint8_t status;
} Call;

typedef struct Block {
    struct Block *next;
} Block;

static uint8_t output[ROOM];
static char line[LONGEST], text[LONGEST];

static void stop(const char *why) {
    fprintf(stderr, "harness: %s\n", why);
    exit(2);
}

static int is_read(Call *call) {
    if (!fgets(line, sizeof line, stdin)) return 0;
    text[0] = 0;
    if (sscanf(line, "%15s %u %lu %s", call->name, &call->game, &call->budget, text) < 3) stop("a line that is no call");
    call->text = (const uint8_t *)text;
    call->length = strlen(text);
    return 1;
}

static void *make(void *given) {
    Call *call = given;
    const uint8_t *id = call->text;
    size_t length = call->length, *written = &call->written;
    if (!strcmp(call->name, "solve"))
        call->status = puzzles_solve(call->game, id, length, call->budget, output, ROOM, written);
    else if (!strcmp(call->name, "grade"))
        call->status = puzzles_grade(call->game, id, length, call->budget, 1, output, ROOM, written);
    else if (!strcmp(call->name, "check"))
        call->status = puzzles_check(call->game, id, length, id, length, output, ROOM, written);
    else
        call->status = puzzles_generate(call->game, id, length, 1, call->budget, 10, 20, output, ROOM, written);
    return given;
}

// The bytes that a thread with this call wrote of its stack, beyond what a thread with none writes.
static size_t used(void *(*start)(void *), Call *call, unsigned char *stack) {
    pthread_t thread;
    pthread_attr_t how;
    size_t clean = 0;
    memset(stack, PAINT, STACK);
    if (pthread_attr_init(&how) || pthread_attr_setstack(&how, stack, STACK) || pthread_create(&thread, &how, start, call))
        stop("no thread");
    pthread_join(thread, NULL);
    pthread_attr_destroy(&how);
    while (clean < STACK && stack[clean] == PAINT) clean++;
    return STACK - clean;
}

static void *rest(void *given) { return given; }

static void measure_stack(void) {
    Call call;
    size_t most = 0;
    unsigned char *stack = aligned_alloc(4096, STACK);
    if (!stack) stop("no memory");
    size_t empty = used(rest, NULL, stack);
    while (is_read(&call)) {
        size_t now = used(make, &call, stack) - empty;
        if (now > most) most = now;
    }
    printf("%zu\n", most);
}

static void keep_within(size_t stack) {
    Call call;
    unsigned long answered = 0;
    while (is_read(&call)) {
        pthread_t thread;
        pthread_attr_t how;
        if (pthread_attr_init(&how) || pthread_attr_setstacksize(&how, stack) || pthread_create(&thread, &how, make, &call))
            stop("no thread");
        pthread_join(thread, NULL);
        pthread_attr_destroy(&how);
        answered += call.status < PUZZLES_NO_MEMORY;
    }
    printf("%lu\n", answered);
}

static void limit_memory(rlim_t most) {
    struct rlimit limit = {most, RLIM_INFINITY};
    if (setrlimit(RLIMIT_AS, &limit)) stop("no limit can be set");
}

// Takes all memory that is left to the process.
static Block *take_all(void) {
    Block *all = NULL;
    for (size_t size = 1 << 16; size >= sizeof(Block); size /= 2)
        for (Block *block; (block = malloc(size)); all = block) block->next = all;
    return all;
}

static void give_back(Block *all) {
    while (all) {
        Block *next = all->next;
        free(all);
        all = next;
    }
}

static void refuse_memory(void) {
    Call call;
    unsigned long refused = 0, answered = 0;
    while (is_read(&call)) {
        limit_memory(1 << 20); // less than there is: no more comes
        Block *all = take_all();
        make(&call);
        refused += call.status == PUZZLES_NO_MEMORY && call.written == 0;
        limit_memory(RLIM_INFINITY);
        give_back(all);
        make(&call);
        answered += call.status < PUZZLES_NO_MEMORY;
    }
    printf("%lu %lu\n", refused, answered);
}

int main(int count, char **words) {
    if (count == 2 && !strcmp(words[1], "stack")) measure_stack();
    else if (count == 2 && !strcmp(words[1], "memory")) refuse_memory();
    else if (count == 3 && !strcmp(words[1], "within")) keep_within(strtoul(words[2], NULL, 10));
    else stop("stack, within or memory");
    return 0;
}
