// What the C of wasm2c asks of its surroundings: a memory that grows, and an end where the module stops. The module has no table,
// so no type of a function is ever asked for. It has no state outside of an instance, so many threads may have one each.
#if defined(__BYTE_ORDER__) && __BYTE_ORDER__ != __ORDER_LITTLE_ENDIAN__
#error "The module's memory has the lowest byte first, and so has to have the processor."
#endif
#define NDEBUG // its assertions are of a list of types, which stays empty
#include "puzzles.h"
#include <stdbool.h>
#include <stdlib.h>
#include <string.h>

#ifdef __GNUC__
#pragma GCC diagnostic ignored "-Wunused-function"
#pragma GCC diagnostic ignored "-Wunused-parameter"
#pragma GCC diagnostic ignored "-Wunused-value"
#pragma GCC diagnostic ignored "-Wunused-variable"
#define LIKELY(x) __builtin_expect(!!(x), 1)
#define UNLIKELY(x) __builtin_expect(!!(x), 0)
#else
#define LIKELY(x) (x)
#define UNLIKELY(x) (x)
#endif
#define WASM_RT_MEMCHECK_SIGNAL_HANDLER 0 // each address is compared, and no signal is taken from the process
#define WASM_RT_USE_STACK_DEPTH_COUNT 0 // calls are as deep as in the library
#define wasm_rt_memcpy memcpy
#define wasm_rt_is_initialized() true
#define wasm_rt_register_func_type(...) 0

enum { PAGE = 65536 };
enum { WASM_RT_I32, WASM_RT_I64, WASM_RT_F32, WASM_RT_F64 };

typedef struct {
    uint8_t *data; // null if there was no memory to begin with
    uint32_t pages, max_pages, size;
} wasm_rt_memory_t;

// A proved module doesn't stop, so the compiler or the processor is at fault.
#define wasm_rt_trap(fault) abort()

// Without a memory to begin with nothing is put into it.
#define wasm_rt_allocate_memory(memory, pages, most) if (!is_allocated(memory, pages, most)) return

static bool is_allocated(wasm_rt_memory_t *memory, uint32_t pages, uint32_t most) {
    *memory = (wasm_rt_memory_t){calloc(pages, PAGE), pages, most, pages * PAGE};
    return memory->data;
}

// The count of pages before, or -1 if there aren't so many.
static uint32_t wasm_rt_grow_memory(wasm_rt_memory_t *memory, uint32_t more) {
    uint32_t before = memory->pages;
    if (more > memory->max_pages - before) return UINT32_MAX;
    uint8_t *moved = realloc(memory->data, (size_t)(before + more) * PAGE);
    if (!moved) return UINT32_MAX;
    memset(moved + (size_t)before * PAGE, 0, (size_t)more * PAGE);
    memory->data = moved;
    memory->pages += more;
    memory->size = memory->pages * PAGE;
    return before;
}

static void wasm_rt_free_memory(wasm_rt_memory_t *memory) { free(memory->data); }
