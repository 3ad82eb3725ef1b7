// The instructions of bench/vm's codes, done by a switch: checked arithmetic, fuel, indices of cells, words read from a
// delta before the snapshot, and for each write the word at the fork. Its first word names the code, the second the rounds.
#include <inttypes.h>
#include <stdint.h>
#include <stdio.h>
#include <stdlib.h>
#include <string.h>

enum op {
    PUSH_INT, LOAD_LOCAL, STORE_LOCAL, LOAD_SHARED, STORE_SHARED, LOAD_CELL, STORE_CELL, CHECK_CELL, ADD, SUB, REM, LT, JUMP,
    JUMP_IF_FALSE, APPLY, CHARGE, CALL, PRINT, RETURN
};
enum stop { DONE, OVERFLOW, ZERO_DIVISOR, INDEX, NO_FUEL, TOO_DEEP };
enum { LOCATIONS = 4096, MOST_FRAMES = 1000, MOST_WORDS = 1 << 20 };

struct instr { enum op op; int64_t operand; };
struct block { int is_procedure, params, locals, has_result; const struct instr *instrs; };
struct variable { uint32_t first, cells; };
struct frame { const struct block *block; const struct instr *at; int64_t *base; };
struct map { uint64_t mask[LOCATIONS / 64], words[LOCATIONS]; };
struct code { const struct block *blocks; const struct variable *variables; };

static int64_t words[MOST_WORDS];
static struct frame frames[MOST_FRAMES];
static struct map delta, roots;
static uint64_t snapshot[LOCATIONS];

static __attribute__((noinline)) uint64_t from_snapshot(uint32_t location) { return snapshot[location]; }

static inline int is_set(const struct map *map, uint32_t location) {
    return map->mask[location >> 6] >> (location & 63) & 1;
}

static inline void set(struct map *map, uint32_t location, uint64_t word) {
    map->mask[location >> 6] |= UINT64_C(1) << (location & 63);
    map->words[location] = word;
}

static inline uint64_t get(uint32_t location) {
    return is_set(&delta, location) ? delta.words[location] : from_snapshot(location);
}

static inline void put(uint32_t location, uint64_t word) {
    if (!is_set(&roots, location)) set(&roots, location, get(location));
    set(&delta, location, word);
}

static enum stop run(const struct code *code, const struct block *block, uint64_t fuel) {
    int64_t *base = words, *top = words + block->locals;
    const struct instr *at = block->instrs;
    int depth = 0;
    uint32_t line = 0;
    for (;;) {
        const int64_t operand = at->operand;
        switch (at->op) {
        case PUSH_INT: *top++ = operand; break;
        case LOAD_LOCAL: *top++ = base[operand]; break;
        case STORE_LOCAL: base[operand] = *--top; break;
        case LOAD_SHARED: *top++ = get(code->variables[operand].first); break;
        case STORE_SHARED: put(code->variables[operand].first, *--top); break;
        case LOAD_CELL: {
            const struct variable v = code->variables[operand];
            if ((uint64_t)top[-1] >= v.cells) return INDEX;
            top[-1] = get(v.first + top[-1]);
            break;
        }
        case STORE_CELL: {
            const struct variable v = code->variables[operand];
            if ((uint64_t)top[-2] >= v.cells) return INDEX;
            put(v.first + top[-2], top[-1]);
            top -= 2;
            break;
        }
        case CHECK_CELL:
            if ((uint64_t)top[-1] >= code->variables[operand].cells) return INDEX;
            break;
        case ADD:
            if (__builtin_add_overflow(top[-2], top[-1], &top[-2])) return OVERFLOW;
            top--;
            break;
        case SUB:
            if (__builtin_sub_overflow(top[-2], top[-1], &top[-2])) return OVERFLOW;
            top--;
            break;
        case REM:
            if (top[-1] == 0) return ZERO_DIVISOR;
            if (top[-1] == -1 && top[-2] == INT64_MIN) return OVERFLOW;
            top[-2] %= top[-1];
            top--;
            break;
        case LT: top[-2] = top[-2] < top[-1]; top--; break;
        case JUMP: at = block->instrs + operand; continue;
        case JUMP_IF_FALSE:
            if (*--top == 0) { at = block->instrs + operand; continue; }
            break;
        case CHARGE:
            if (fuel == 0) return NO_FUEL;
            fuel--;
            line = operand;
            break;
        case APPLY:
        case CALL: {
            const struct block *called = &code->blocks[operand];
            if (depth + 1 >= MOST_FRAMES) return TOO_DEEP;
            frames[depth++] = (struct frame){block, at + 1, base};
            base = top - called->params;
            for (int local = called->params; local < called->locals; local++) base[local] = 0;
            top = base + called->locals;
            block = called;
            at = called->instrs;
            continue;
        }
        case PRINT: printf("%" PRId64 "\n", *--top); break;
        case RETURN:
            if (depth == 0) return line == 0 ? OVERFLOW : DONE;
            if (block->has_result) { *base = top[-1]; top = base + 1; } else top = base;
            depth--;
            block = frames[depth].block;
            at = frames[depth].at;
            base = frames[depth].base;
            continue;
        }
        at++;
    }
}

int main(int argc, char **argv) {
    if (argc != 3) return 2;
    const char *name = argv[1];
    const int64_t rounds = strtoll(argv[2], NULL, 10);
    const int calls = strcmp(name, "calls") == 0;
    const enum op other = calls ? CALL : APPLY;
    const struct instr loop[] = {
        {CHARGE, 1}, {LOAD_LOCAL, 0}, {PUSH_INT, rounds}, {LT, 0}, {JUMP_IF_FALSE, 18}, {CHARGE, 2}, {LOAD_LOCAL, 0},
        {PUSH_INT, 1}, {ADD, 0}, {STORE_LOCAL, 0}, {CHARGE, 3}, {LOAD_LOCAL, 1}, {LOAD_LOCAL, 0}, {PUSH_INT, 7}, {REM, 0},
        {ADD, 0}, {STORE_LOCAL, 1}, {JUMP, 0}, {LOAD_LOCAL, 1}, {PRINT, 0}, {RETURN, 0}};
    const struct instr scalar[] = {
        {CHARGE, 1}, {LOAD_SHARED, 0}, {PUSH_INT, rounds}, {LT, 0}, {JUMP_IF_FALSE, 18}, {CHARGE, 2}, {LOAD_SHARED, 0},
        {PUSH_INT, 1}, {ADD, 0}, {STORE_SHARED, 0}, {CHARGE, 3}, {LOAD_SHARED, 1}, {LOAD_SHARED, 0}, {PUSH_INT, 7}, {REM, 0},
        {ADD, 0}, {STORE_SHARED, 1}, {JUMP, 0}, {LOAD_SHARED, 1}, {PRINT, 0}, {RETURN, 0}};
    const struct instr cell[] = {
        {CHARGE, 1}, {LOAD_LOCAL, 0}, {PUSH_INT, rounds}, {LT, 0}, {JUMP_IF_FALSE, 23}, {CHARGE, 2}, {LOAD_LOCAL, 0},
        {PUSH_INT, 1}, {ADD, 0}, {STORE_LOCAL, 0}, {CHARGE, 3}, {LOAD_LOCAL, 0}, {PUSH_INT, 8}, {REM, 0}, {CHECK_CELL, 0},
        {LOAD_LOCAL, 0}, {PUSH_INT, 8}, {REM, 0}, {LOAD_CELL, 0}, {LOAD_LOCAL, 0}, {ADD, 0}, {STORE_CELL, 0}, {JUMP, 0},
        {PUSH_INT, 3}, {LOAD_CELL, 0}, {PRINT, 0}, {RETURN, 0}};
    const struct instr by_block[] = {
        {CHARGE, 1}, {LOAD_LOCAL, 0}, {PUSH_INT, rounds}, {LT, 0}, {JUMP_IF_FALSE, 16}, {CHARGE, 2}, {LOAD_LOCAL, 0},
        {PUSH_INT, 1}, {ADD, 0}, {STORE_LOCAL, 0}, {CHARGE, 3}, {LOAD_LOCAL, 1}, {LOAD_LOCAL, 0}, {other, 0},
        {STORE_LOCAL, 1}, {JUMP, 0}, {LOAD_LOCAL, 1}, {PRINT, 0}, {RETURN, 0}};
    const struct instr charged[] = {{CHARGE, 5}, {LOAD_LOCAL, 0}, {LOAD_LOCAL, 1}, {PUSH_INT, 7}, {REM, 0}, {ADD, 0}, {RETURN, 0}};
    const struct instr *instrs = strcmp(name, "loop") == 0     ? loop
                                 : strcmp(name, "scalar") == 0 ? scalar
                                 : strcmp(name, "cell") == 0   ? cell
                                                               : by_block;
    const struct block blocks[] = {{calls, 2, 2, 1, calls ? charged : charged + 1}, {1, 0, 2, 0, instrs}};
    const struct variable cells[] = {{0, 8}}, scalars[] = {{0, 1}, {1, 1}};
    const struct code code = {blocks, strcmp(name, "cell") == 0 ? cells : scalars};
    return run(&code, &blocks[1], UINT64_MAX);
}
