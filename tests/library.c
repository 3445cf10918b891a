/* The library from C: document 01's example 7, a function that returns the sum of its two parameters, through every entry. */
#include "../include/agnulfrosc.h"

#include <stdio.h>
#include <string.h>

static int passed, failed;

static void check(const char *what, int holds)
{
    if (holds) {
        passed++;
    } else {
        failed++;
        printf("library.c: %s\n", what);
    }
}

/* docs/INPUT.md, "A worked example". */
static const uint32_t WORDS[] = {
    1, 0, 0, 3, 1, 1, 0, 0, 5, 23, 37, 45, 45, 45,            /* head */
    0, 1, 0, 0, 1, 0, 1, 2, 0,                                /* values */
    0, 0, 0, 2, 0, 1, 1, 0, 4, 1, 0, 0, 0, 0,                 /* block 0 */
    0, 0, 3, 2, 2, 0, 0, 0,                                   /* IAdd */
    0, 1, 0, 1, 2,                                            /* pool */
};
#define COUNT (sizeof WORDS / sizeof *WORDS)

/* docs/OPS.md, the three words of the same function. */
static const uint64_t OPS[] = { 0x0000000001000023, 0x0000000000000002, 0x0000000000000021 };

static uint64_t functions[4], ops[8], globals[4], switches[3], lookups[5], values[4], noted[3], labels[2], used[AGNULFROSC_USED_COUNT];
static uint32_t spans[8], builtins[2], targets[2], places[3], hints[3];

static uint8_t compile(size_t count, size_t ops_len)
{
    return agnulfrosc_compile(WORDS, count, functions, 4, ops, ops_len, spans, 8, globals, 4, builtins, 2, switches, 3, targets, 2, lookups, 5,
                              values, 4, places, 3, hints, 3, noted, 3, labels, 2, used, AGNULFROSC_USED_COUNT);
}

static void compiles(void)
{
    check("work room of the function", agnulfrosc_values(WORDS) == 3 && agnulfrosc_labels(WORDS) == 2);
    check("judged", agnulfrosc_judge(WORDS, COUNT, functions, 4) == AGNULFROSC_DONE);
    check("compiled", compile(COUNT, 8) == AGNULFROSC_DONE);
    check("three ops", used[AGNULFROSC_USED_OPS] == 3 && memcmp(ops, OPS, sizeof OPS) == 0);
    check("places", places[0] == 1 && places[1] == 2 && places[2] == 1);
    check("its entry", functions[1] == 1);
    for (int i = 0; i < 3; i++)
        check("an op word", agnulfrosc_op(ops[i]) == AGNULFROSC_DONE);
    check("no op word", agnulfrosc_op(0x3d) == AGNULFROSC_BAD_WORD);
}

static void refuses(void)
{
    ops[3] = 7;
    check("cut short", compile(COUNT - 1, 8) == AGNULFROSC_BAD_WORD);
    check("zeroed behind the ops, and nothing before", ops[3] == 0 && ops[2] == OPS[2] && used[AGNULFROSC_USED_OPS] == 3 && places[0] == 0);
    check("no room", compile(COUNT, 5) == AGNULFROSC_NO_ROOM);
    used[AGNULFROSC_USED_OPS] = 9;
    check("a used length past its buffer", compile(COUNT, 8) == AGNULFROSC_TOO_MANY && ops[0] == OPS[0]);
    used[AGNULFROSC_USED_OPS] = 3;
    check("nothing lent", agnulfrosc_compile(NULL, 0, NULL, 0, NULL, 0, NULL, 0, NULL, 0, NULL, 0, NULL, 0, NULL, 0, NULL, 0, NULL, 0, NULL, 0,
                                             NULL, 0, NULL, 0, NULL, 0, NULL, 0) == AGNULFROSC_BAD_WORD);
    check("nothing lent to judge", agnulfrosc_judge(NULL, 0, NULL, 0) == AGNULFROSC_BAD_WORD);
}

static void interns(void)
{
    uint32_t ends[] = { COUNT };
    uint64_t answer[] = { 0, 9 };
    check("no strings", agnulfrosc_strings(WORDS, COUNT, ends, 1, globals, 4, answer, 2) == AGNULFROSC_DONE && answer[0] == 0 && answer[1] == 0);
    ends[0] = COUNT - 1;
    check("a function cut short", agnulfrosc_strings(WORDS, COUNT, ends, 1, globals, 4, answer, 2) == AGNULFROSC_BAD_WORD && answer[1] == 0);
    check("an empty list", agnulfrosc_strings(NULL, 0, NULL, 0, NULL, 0, NULL, 0) == AGNULFROSC_DONE);
}

static void compacts(void)
{
    uint64_t program[] = { 0, 0x0000000300000005, 0, 0x21 }; /* Nop, Jmp 3, Nop, Ret */
    uint32_t lines[] = { 1, 2, 3, 4 }, work[5];
    uint64_t lengths[] = { 4, 0 }, table[] = { 1 };
    check("compacted", agnulfrosc_compact(program, 4, lines, 4, NULL, 0, table, 1, work, 5, lengths, 2) == AGNULFROSC_DONE);
    check("two ops", lengths[0] == 2 && program[0] == 0x0000000100000005 && program[1] == 0x21 && lines[0] == 2 && lines[1] == 4);
    check("a target past the end", (program[0] = 0x0000000900000005, agnulfrosc_compact(program, 4, lines, 4, NULL, 0, table, 1, work, 5, lengths, 2)) == AGNULFROSC_BAD_TARGET);
}

static void moves(void)
{
    uint32_t from[] = { 0, 1 }, to[] = { 1, 0 }; /* two registers trade what they hold, by SCRATCH, register 31 */
    uint64_t lengths[] = { 0 };
    check("moved", agnulfrosc_moves(from, 2, to, 2, 7, ops, 8, spans, 8, lengths, 1) == AGNULFROSC_DONE);
    check("three moves", lengths[0] == 3 && spans[2] == 7);
    to[0] = 0;
    check("two moves to one place", agnulfrosc_moves(from, 2, to, 2, 7, ops, 8, spans, 8, lengths, 1) == AGNULFROSC_BAD_MOVE && lengths[0] == 3);
}

int main(void)
{
    compiles();
    refuses();
    interns();
    compacts();
    moves();
    printf("%d passed, %d failed\n", passed, failed);
    return failed != 0;
}
