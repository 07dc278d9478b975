// The calls of puzzles.h by the module. Each has an instance of its own, whose memory goes back with it.
typedef struct {
    Z_puzzles_instance_t module;
    uint64_t output, room, written; // where the answer goes, in the module's memory
    bool is_full;
} Call;

enum { MOST_ROOM = 1 << 30 };

static size_t lesser(size_t a, size_t b) { return a < b ? a : b; }

// The address of so many bytes in the module's memory.
static uint64_t place(Call *call, size_t length) {
    uint64_t found = call->is_full || length > MOST_ROOM ? 0 : Z_puzzlesZ_malloc(&call->module, length ? length : 1);
    call->is_full |= !found;
    return found;
}

static uint64_t put(Call *call, const uint8_t *text, size_t length) {
    uint64_t found = place(call, length);
    if (found && length) memcpy(call->module.w2c_memory.data + found, text, length);
    return found;
}

// An instance with room for an answer, of which no more is taken than can be needed.
static void begin(Call *call, size_t room) {
    *call = (Call){.room = lesser(room, MOST_ROOM)};
    Z_puzzles_instantiate(&call->module);
    call->is_full = !call->module.w2c_memory.data;
    call->output = place(call, call->room);
    call->written = place(call, sizeof(uint64_t));
}

// Hands the answer over, and gives the memory back. An answer of more room than there can be is want of memory.
static uint8_t end(Call *call, uint32_t told, uint8_t *output, size_t room, size_t *written) {
    uint8_t *memory = call->module.w2c_memory.data, status = call->is_full ? PUZZLES_NO_MEMORY : (uint8_t)told;
    uint64_t length = 0;
    if (!call->is_full) memcpy(&length, memory + call->written, sizeof length);
    if (status == PUZZLES_TOO_SMALL && length <= room) status = PUZZLES_NO_MEMORY;
    if (status < PUZZLES_NO_MEMORY && length) memcpy(output, memory + call->output, (size_t)length);
    *written = status == PUZZLES_NO_MEMORY || status == PUZZLES_BROKEN ? 0 : (size_t)length;
    wasm_rt_free_memory(&call->module.w2c_memory);
    return status;
}

// The call of a name, if there was memory for what it is told.
#define TOLD(call, name, ...) \
    ((call)->is_full ? 0 : name(&(call)->module, __VA_ARGS__, (call)->output, (call)->room, (call)->written))

uint32_t puzzles_version(void) {
    Z_puzzles_instance_t module = {0};
    return Z_puzzlesZ_puzzles_version(&module);
}

uint8_t puzzles_solve(uint8_t game, const uint8_t *id, size_t id_length, uint64_t budget,
                      uint8_t *output, size_t room, size_t *written) {
    Call call;
    begin(&call, lesser(room, PUZZLES_ROOM_SOLVE));
    uint64_t text = put(&call, id, id_length);
    uint32_t told = TOLD(&call, Z_puzzlesZ_puzzles_solve, game, text, id_length, budget);
    return end(&call, told, output, room, written);
}

uint8_t puzzles_solve_each(uint8_t game, const uint8_t *lines, size_t lines_length, uint64_t budget,
                           uint8_t *output, size_t room, size_t *written) {
    uint64_t most = PUZZLES_ROOM_SOLVE;
    for (size_t at = 0; at < lines_length; at++) if (lines[at] == '\n') most += PUZZLES_ROOM_SOLVE;
    Call call;
    begin(&call, most < room ? (size_t)most : room);
    uint64_t text = put(&call, lines, lines_length);
    uint32_t told = TOLD(&call, Z_puzzlesZ_puzzles_solve_each, game, text, lines_length, budget);
    return end(&call, told, output, room, written);
}

uint8_t puzzles_check(uint8_t game, const uint8_t *id, size_t id_length, const uint8_t *grid, size_t grid_length,
                      uint8_t *output, size_t room, size_t *written) {
    Call call;
    begin(&call, lesser(room, PUZZLES_ROOM_CHECK));
    uint64_t text = put(&call, id, id_length), rows = put(&call, grid, grid_length);
    uint32_t told = TOLD(&call, Z_puzzlesZ_puzzles_check, game, text, id_length, rows, grid_length);
    return end(&call, told, output, room, written);
}

uint8_t puzzles_grade(uint8_t game, const uint8_t *id, size_t id_length, uint64_t budget, uint8_t traced,
                      uint8_t *output, size_t room, size_t *written) {
    Call call;
    begin(&call, traced ? room : lesser(room, PUZZLES_ROOM_GRADE));
    uint64_t text = put(&call, id, id_length);
    uint32_t told = TOLD(&call, Z_puzzlesZ_puzzles_grade, game, text, id_length, budget, traced);
    return end(&call, told, output, room, written);
}

uint8_t puzzles_generate(uint8_t game, const uint8_t *size, size_t size_length, uint64_t seed, uint64_t budget,
                         uint32_t tries, uint8_t black, uint8_t *output, size_t room, size_t *written) {
    Call call;
    begin(&call, lesser(room, PUZZLES_ROOM_GENERATE));
    uint64_t text = put(&call, size, size_length);
    uint32_t told = TOLD(&call, Z_puzzlesZ_puzzles_generate, game, text, size_length, seed, budget, tries, black);
    return end(&call, told, output, room, written);
}
