/* The compiler's back end for other languages: libagnulfrosc.a, written by `sh tools/archive agnulfrosc`.
 *
 * Every entry takes any input, ends, and answers a number, 0 for Done. A buffer is a pointer and how many elements it has; any pair that is
 * valid memory will do, null with 0 too. No two buffers of a call may overlap. docs/INPUT.md has the words of a function, docs/OPS.md those of
 * the ops. What stands in each buffer after a call is proved: crates/agnulfrosc/specs/Library.antt and the definitions that it names. */
#ifndef AGNULFROSC_H
#define AGNULFROSC_H

#include <stddef.h>
#include <stdint.h>

#ifdef __cplusplus
extern "C" {
#endif

/* The lowest number that applies. */
enum agnulfrosc_number {
    AGNULFROSC_DONE = 0,
    AGNULFROSC_BAD_WORD = 1,
    AGNULFROSC_TOO_MANY = 2,
    AGNULFROSC_BAD_SHAPE = 3,
    AGNULFROSC_DOUBLE_DEF = 4,
    AGNULFROSC_BAD_INTERVAL = 5,
    AGNULFROSC_UNKNOWN_FUNC = 6,
    AGNULFROSC_BAD_KEY = 7,
    AGNULFROSC_NO_SLOT = 8,
    AGNULFROSC_NO_ROOM = 9,
    AGNULFROSC_BAD_MOVE = 10,
    AGNULFROSC_BAD_TARGET = 11
};

/* How much of each buffer is used, in the order in which agnulfrosc_compile takes it. */
enum agnulfrosc_used {
    AGNULFROSC_USED_OPS,      /* ops, and as many spans */
    AGNULFROSC_USED_GLOBALS,  /* of two words each: kind and payload */
    AGNULFROSC_USED_BUILTINS,
    AGNULFROSC_USED_SWITCHES, /* of three words each: first key, first slot, how many slots */
    AGNULFROSC_USED_TARGETS,  /* the slots of all switch tables, a pc each */
    AGNULFROSC_USED_LOOKUPS,  /* of five words each: the same, then the default's kind and payload */
    AGNULFROSC_USED_VALUES,   /* the slots of all lookup tables, two words each: kind and payload */
    AGNULFROSC_USED_COUNT
};

/* The work room of a function, from the counts in its head: so many hints and noted registers, and so many labels. */
static inline size_t agnulfrosc_values(const uint32_t *words) { return words[3]; }

static inline size_t agnulfrosc_labels(const uint32_t *words)
{
    size_t blocks = words[4], edges = words[6], pads = blocks * edges;
    return 2 * blocks + (pads < 32767 ? pads : 32767);
}

/* 1 to 7 of one function, 0 if none applies. functions is the function table by id: 0 not there, 1 + 4 * pc bytecode, 2 + 4 * number native
 * code, 3 + 4 * number native code that gives a double. */
uint8_t agnulfrosc_judge(const uint32_t *words, size_t words_len, const uint64_t *functions, size_t functions_len);

/* The strings of a list of functions among the globals, before the first is compiled. The functions stand one behind the other in words;
 * ends has where each of them ends. answer has two words: how many globals are used, before and after; the index of the function that is
 * refused. 0, or 1, 2, 3, 9, and then nothing is interned. */
uint8_t agnulfrosc_strings(const uint32_t *words, size_t words_len, const uint32_t *ends, size_t ends_len,
                           uint64_t *globals, size_t globals_len, uint64_t *answer, size_t answer_len);

/* One function behind the program so far. Done: the used lengths are the new ones, and what lies past them is untouched; places has the place of
 * each value (0 none, 1 + r register r, 257 + k slot k); the function's own entry in the table is its first pc. Refused: what lies before the
 * used lengths is kept, the rest and the places are zero, the table is as it was. hints, noted and labels are work room and end zero. used has
 * AGNULFROSC_USED_COUNT words. */
uint8_t agnulfrosc_compile(const uint32_t *words, size_t words_len, uint64_t *functions, size_t functions_len,
                           uint64_t *ops, size_t ops_len, uint32_t *spans, size_t spans_len,
                           uint64_t *globals, size_t globals_len, uint32_t *builtins, size_t builtins_len,
                           uint64_t *switches, size_t switches_len, uint32_t *targets, size_t targets_len,
                           uint64_t *lookups, size_t lookups_len, uint64_t *values, size_t values_len,
                           uint32_t *places, size_t places_len, uint32_t *hints, size_t hints_len,
                           uint64_t *noted, size_t noted_len, uint64_t *labels, size_t labels_len,
                           uint64_t *used, size_t used_len);

/* Nop compaction. work is work room, one word for each op and one more; used has two words: ops, before and after, and slots of switch
 * tables. 0, or 1, 2, 9, 11, and then nothing is changed but that work is zero. */
uint8_t agnulfrosc_compact(uint64_t *ops, size_t ops_len, uint32_t *spans, size_t spans_len, uint32_t *targets, size_t targets_len,
                           uint64_t *functions, size_t functions_len, uint32_t *work, size_t work_len, uint64_t *used, size_t used_len);

/* The ops of a list of moves that happen at once, behind the ops so far. Move k goes from place sources[k] to place destinations[k] (r register
 * r, 256 + k slot k); there are as many as sources, and a destination that is missing is register 0. used has one word, the ops before and
 * after. 0, or 2, 9, 10, and then nothing is changed. */
uint8_t agnulfrosc_moves(const uint32_t *sources, size_t sources_len, const uint32_t *destinations, size_t destinations_len, uint32_t span,
                         uint64_t *ops, size_t ops_len, uint32_t *spans, size_t spans_len, uint64_t *used, size_t used_len);

/* 0 if a word is an op, else 1. Byte 0 is its opcode, bytes 1 to 3 are a, b and c, the upper half is w. */
uint8_t agnulfrosc_op(uint64_t word);

#ifdef __cplusplus
}
#endif

#endif
