// Calls with limits: they answer as those without; a clock ends searches on eight threads; a small memory is told. For
// test_limited.py. Prints a line for each part, and ends with 1 if one isn't as it should be.
#define _GNU_SOURCE
#include "limited.h"
#include <puzzles.h>

#include <pthread.h>
#include <stdio.h>
#include <stdlib.h>
#include <string.h>
#include <time.h>

enum { THREADS = 8, ENDED = 20, CLOCK = 30, LATE = 50, ROOM = 1 << 17, BYTES = 64 << 20, SMALL = 4096, MOST_KB = 40000 };

typedef struct {
    uint8_t game, status, *output;
    const char *id;
    uint64_t budget;
    size_t written;
} Call;

static void solve(void *given) {
    Call *call = given;
    call->status = puzzles_solve(call->game, (const uint8_t *)call->id, strlen(call->id), call->budget, call->output, ROOM,
                                 &call->written);
}

static void grade(void *given) {
    Call *call = given;
    call->status = puzzles_grade(call->game, (const uint8_t *)call->id, strlen(call->id), call->budget, 1, call->output, ROOM,
                                 &call->written);
}

static void endless(void *given) {
    Call *call = given;
    call->status = puzzles_generate(PUZZLES_SOLO, (const uint8_t *)"5x6", 3, 1, 1000000000, 1000, 0, call->output, ROOM,
                                    &call->written);
}

static double spent(void) {
    struct timespec time;
    clock_gettime(CLOCK_THREAD_CPUTIME_ID, &time);
    return time.tv_sec * 1e3 + time.tv_nsec / 1e6;
}

static long resident(void) {
    long all, here;
    FILE *file = fopen("/proc/self/statm", "r");
    if (!file || fscanf(file, "%ld %ld", &all, &here) != 2) exit(2);
    fclose(file);
    return here * 4;
}

// How many answers of the IDs in the input, a game's number before each, differ with limits.
static long compared(void) {
    static uint8_t plain[ROOM], limited[ROOM];
    static char id[ROOM];
    unsigned game;
    long count = 0, differ = 0;
    while (scanf("%u %131071s", &game, id) == 2) {
        for (int part = 0; part < 2; part++) {
            void (*work)(void *) = part ? grade : solve;
            Call one = {.game = game, .id = id, .budget = 1000, .output = plain}, other = one;
            other.output = limited;
            work(&one);
            int end = puzzles_limited(work, &other, BYTES, 60000);
            differ += end != PUZZLES_DONE || one.status != other.status || one.written != other.written
                      || memcmp(plain, limited, one.written);
            count++;
        }
    }
    printf("%ld calls with limits, %ld differ\n", count, differ);
    return differ + (count == 0);
}

// How long the longest call of a thread took of the processor, and how many were late. A full machine tells the clock late.
typedef struct {
    double most;
    int late;
} Ended;

static void *ended(void *given) {
    Ended *told = given;
    uint8_t *output = malloc(ROOM);
    for (int at = 0; output && at < ENDED; at++) {
        Call call = {.output = output}, next = {.game = PUZZLES_PATTERN, .id = "5x1:1/1//1/1/2.2", .output = output};
        double begun = spent();
        int end = puzzles_limited(endless, &call, BYTES, CLOCK);
        double took = spent() - begun;
        told->most = took > told->most ? took : told->most;
        told->late += took > CLOCK + LATE;
        if (end != PUZZLES_LATE || puzzles_limited(solve, &next, BYTES, 0) != PUZZLES_DONE || next.status || next.written != 10)
            told->late = THREADS * ENDED;
    }
    free(output);
    return NULL;
}

static long clocked(void) {
    pthread_t threads[THREADS];
    Ended each[THREADS] = {0}, all = {0};
    for (int at = 0; at < THREADS; at++)
        if (pthread_create(&threads[at], NULL, ended, &each[at])) exit(2);
    for (int at = 0; at < THREADS; at++) {
        pthread_join(threads[at], NULL);
        all.most = each[at].most > all.most ? each[at].most : all.most;
        all.late += each[at].late;
    }
    printf("%d calls ended by %d ms, %d of them late by more than %d ms, the longest after %.0f ms; %ld KB are resident\n",
           THREADS * ENDED, CLOCK, all.late, LATE, all.most, resident());
    return all.late > THREADS * ENDED / 2 || resident() > MOST_KB;
}

static long small(void) {
    static uint8_t output[ROOM];
    Call call = {.game = PUZZLES_SOLO, .id = "3x3:zzzc", .budget = 1000, .output = output};
    int end = puzzles_limited(solve, &call, SMALL, 0), is_told = end == PUZZLES_DONE && call.status == PUZZLES_NO_MEMORY;
    printf("a small memory: %s\n", is_told ? "told" : "not told");
    return !is_told;
}

int main(void) { return compared() + clocked() + small() ? 1 : 0; }
