/*
 * Compiled and never run: the header of the wear operation stands by itself,
 * may be included twice, and works in C++. A typedef of an array of length -1
 * does not compile.
 */
#include "crocktendril_wear.h"
#include "crocktendril_wear.h"

#define LONGEST CROCKTENDRIL_WEAR_SET_LENGTH(CROCKTENDRIL_WEAR_GROUPS_MAX)
typedef char longest_set[LONGEST == CROCKTENDRIL_WEAR_SET_MAX ? 1 : -1];

/* Place 15, code 14, kind 2, word FFFFFFFF. */
#define ANSWER (((uint64_t)0xF0E02 << 32) | 0xFFFFFFFF)
typedef char place_15[CROCKTENDRIL_WEAR_PLACE(ANSWER) == 15 ? 1 : -1];
typedef char code_14[CROCKTENDRIL_WEAR_CODE(ANSWER) == CROCKTENDRIL_CODE_READ_HELD ? 1 : -1];
typedef char kind_2[CROCKTENDRIL_WEAR_KIND(ANSWER) == CROCKTENDRIL_KIND_WHOLE ? 1 : -1];
typedef char all_ones[CROCKTENDRIL_WEAR_WORD(ANSWER) == 0xFFFFFFFF ? 1 : -1];

/* Place 3, code 14, kind 2: slot 8 holds the cell. */
#define HELD (((uint64_t)0x30E02 << 32) | 8)
typedef char held_by_8[CROCKTENDRIL_HOLDER(CROCKTENDRIL_WEAR_WORD(HELD)) == 8 ? 1 : -1];

uint64_t wear_of_no_area(void);

uint64_t wear_of_no_area(void)
{
    static uint8_t area[CROCKTENDRIL_AREA_LENGTH(2)];
    static const uint8_t set[CROCKTENDRIL_WEAR_SET_LENGTH(1)] = {0, 1};

    return crocktendril_wear(area, sizeof area, set, sizeof set, CROCKTENDRIL_SLOTS);
}
