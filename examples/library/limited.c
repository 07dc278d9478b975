// A heap for each call of the library, and a clock. It is linked with libpuzzles_c.a, which has the calls without a heap:
//
//     cc -o caller caller.c examples/library/limited.c -I library -I examples/library library/out/libpuzzles_c.a
//
// The library keeps nothing between calls, holds no lock and makes no system call, and its memory is the heap below. So a call may
// be left at any instruction, and its memory goes with it. This is Linux alone.
#define _GNU_SOURCE
#include "limited.h"

#include <pthread.h>
#include <setjmp.h>
#include <signal.h>
#include <stdint.h>
#include <stdlib.h>
#include <string.h>
#include <sys/mman.h>
#include <sys/syscall.h>
#include <time.h>
#include <unistd.h>

enum { HEAD = 16, SMALLEST = 4, CLASSES = 41, AGAIN = 10000000 };  // bytes before a block, powers of two, and nanoseconds

// A heap of blocks of powers of two, and the way out of the work that has it.
typedef struct {
    unsigned char *next, *end;
    void *freed[CLASSES];
    sigjmp_buf out;
    volatile sig_atomic_t is_inside;
} Room;

typedef struct {
    uint64_t is_taken;
    void *place;
} Taken;

static _Thread_local Room *room;  // of the work that this thread does
static char nowhere;

static Taken taken(void *place) { return (Taken){place != NULL, place ? place : &nowhere}; }

static uint64_t *class_of(void *place) { return (uint64_t *)((unsigned char *)place - HEAD); }

static void *take(uint64_t size) {
    unsigned class = SMALLEST;
    while (class < CLASSES && (uint64_t)1 << class < size) class++;
    if (class == CLASSES) return NULL;
    void *place = room->freed[class];
    if (place) {
        memcpy(&room->freed[class], place, sizeof place);
        return place;
    }
    size_t whole = ((size_t)1 << class) + HEAD;
    if ((size_t)(room->end - room->next) < whole) return NULL;
    place = room->next + HEAD;
    *class_of(place) = class;
    room->next += whole;
    return place;
}

static void give_back(void *place) {
    void **freed = &room->freed[*class_of(place)];
    memcpy(place, freed, sizeof place);
    *freed = place;
}

// The three calls by which the library takes memory: outside of a work it is the C library's.
Taken rattle_alloc(uint64_t size, uint64_t alignment) {
    if (alignment > HEAD) return taken(NULL);
    size = size ? size : alignment;
    return taken(room ? take(size) : malloc(size));
}

void rattle_dealloc(void *place) {
    if (room && place) give_back(place);
    if (!room) free(place);
}

Taken rattle_realloc(void *place, uint64_t old, uint64_t size, uint64_t alignment) {
    if (!room) return alignment > HEAD ? taken(NULL) : taken(realloc(place, size ? size : alignment));
    Taken moved = rattle_alloc(size, alignment);
    if (!moved.is_taken || !place) return moved;
    memcpy(moved.place, place, old < size ? old : size);
    give_back(place);
    return moved;
}

static void leave(int number) {
    (void)number;
    if (room && room->is_inside) siglongjmp(room->out, 1);
}

static void prepare(void) {
    struct sigaction how = {.sa_handler = leave, .sa_flags = SA_RESTART};
    sigaction(SIGRTMAX - 1, &how, NULL);
}

// A timer of this thread's processor time that signals this thread.
static int begin_clock(timer_t *timer) {
    struct sigevent to = {.sigev_notify = SIGEV_THREAD_ID, .sigev_signo = SIGRTMAX - 1};
    to._sigev_un._tid = (pid_t)syscall(SYS_gettid);
    return timer_create(CLOCK_THREAD_CPUTIME_ID, &to, timer);
}

enum puzzles_limited_end puzzles_limited(void (*work)(void *), void *given, size_t bytes, unsigned milliseconds) {
    static pthread_once_t once = PTHREAD_ONCE_INIT;
    pthread_once(&once, prepare);
    unsigned char *memory = mmap(NULL, bytes, PROT_READ | PROT_WRITE, MAP_PRIVATE | MAP_ANONYMOUS | MAP_NORESERVE, -1, 0);
    if (memory == MAP_FAILED) return PUZZLES_UNBEGUN;
    Room here = {.next = memory, .end = memory + bytes};
    timer_t timer;
    volatile enum puzzles_limited_end end = milliseconds && begin_clock(&timer) ? PUZZLES_UNBEGUN : PUZZLES_DONE;
    volatile int has_clock = milliseconds && end == PUZZLES_DONE;
    if (end == PUZZLES_DONE) {
        room = &here;
        if (sigsetjmp(here.out, 1) == 0) {
            here.is_inside = 1;
            // again and again, so that a signal which came before `is_inside` isn't the only one
            struct itimerspec in = {{0, AGAIN}, {milliseconds / 1000, milliseconds % 1000 * 1000000L}};
            if (has_clock) timer_settime(timer, 0, &in, NULL);
            work(given);
        } else {
            end = PUZZLES_LATE;
        }
        here.is_inside = 0;
        room = NULL;
    }
    if (has_clock) timer_delete(timer);
    munmap(memory, bytes);
    return end;
}
