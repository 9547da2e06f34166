/*
 * Compiled and never run: the header stands by itself, may be included twice,
 * and works in C++. A typedef of an array of length -1 does not compile.
 */
#include "crocktendril.h"
#include "crocktendril.h"

typedef char length_for_one[CROCKTENDRIL_AREA_LENGTH(1) == 1604 ? 1 : -1];
typedef char length_for_64[CROCKTENDRIL_AREA_LENGTH(CROCKTENDRIL_CELLS_MAX) == 2486 ? 1 : -1];

/* Code 13, kind 2, word FFFFFFFF. */
#define REPLY (((uint64_t)0xD02 << 32) | 0xFFFFFFFF)
typedef char code_13[CROCKTENDRIL_REPLY_CODE(REPLY) == CROCKTENDRIL_CODE_ABORTED ? 1 : -1];
typedef char kind_2[CROCKTENDRIL_REPLY_KIND(REPLY) == CROCKTENDRIL_KIND_WHOLE ? 1 : -1];
typedef char all_ones[CROCKTENDRIL_REPLY_WORD(REPLY) == 0xFFFFFFFF ? 1 : -1];

/* Code 11, kind 2: slot 8 holds cell 63. Code 14, kind 2: slot 1 holds the
   cell. The lowest byte alone is the holder, all above it is the cell. */
#define OF_A_LOCK (((uint64_t)0xB02 << 32) | (63 * 256 + 8))
#define OF_A_READ (((uint64_t)0xE02 << 32) | 1)
#define LOCK_WORD CROCKTENDRIL_REPLY_WORD(OF_A_LOCK)
#define READ_WORD CROCKTENDRIL_REPLY_WORD(OF_A_READ)
#define BY_ANOTHER CROCKTENDRIL_CODE_HELD_BY_ANOTHER
typedef char code_11[CROCKTENDRIL_REPLY_CODE(OF_A_LOCK) == BY_ANOTHER ? 1 : -1];
typedef char code_14[CROCKTENDRIL_REPLY_CODE(OF_A_READ) == CROCKTENDRIL_CODE_READ_HELD ? 1 : -1];
typedef char cell_63[CROCKTENDRIL_HELD_CELL(LOCK_WORD) == 63 ? 1 : -1];
typedef char held_by_8[CROCKTENDRIL_HOLDER(LOCK_WORD) == 8 ? 1 : -1];
typedef char held_by_1[CROCKTENDRIL_HOLDER(READ_WORD) == 1 ? 1 : -1];

/* Code 15, kind and word 0. */
#define OF_AN_IGNORE ((uint64_t)0xF00 << 32)
#define WRITTEN_TOO CROCKTENDRIL_CODE_MARKED_WRITTEN
typedef char code_15[CROCKTENDRIL_REPLY_CODE(OF_AN_IGNORE) == WRITTEN_TOO ? 1 : -1];
typedef char kind_0[CROCKTENDRIL_REPLY_KIND(OF_AN_IGNORE) == CROCKTENDRIL_KIND_NONE ? 1 : -1];

/* What the caller hands in is taken whole, also without brackets of its own. */
typedef char cell_2[CROCKTENDRIL_HELD_CELL(512 | 3) == 2 ? 1 : -1];
typedef char held_by_3[CROCKTENDRIL_HOLDER(512 | 3) == 3 ? 1 : -1];

/* The old name of code 10 stood for two causes. Code that uses it shall not
   compile. */
#ifdef CROCKTENDRIL_CODE_NOT_READABLE
#error "code 10 has one cause, and is READ_NEWER"
#endif

uint64_t begin_on_a_fresh_area(void);

uint64_t begin_on_a_fresh_area(void)
{
    static uint8_t area[CROCKTENDRIL_AREA_LENGTH(1)];
    static const uint8_t one_cell[CROCKTENDRIL_DESCRIPTION_LENGTH] = {CROCKTENDRIL_KIND_TRUTH};

    if (crocktendril_lay_out(area, sizeof area, one_cell, sizeof one_cell) !=
        CROCKTENDRIL_LAY_OUT_DONE)
        return 0;
    return crocktendril_step(area, sizeof area, CROCKTENDRIL_STEP_BEGIN, CROCKTENDRIL_SLOTS, 0, 0,
                             0);
}
