/*
 * Crocktendril: levelling wear, on top of the cells.
 *
 * A module wears out by its erases. Its block groups are counted in cells, and
 * one operation picks the group that is the least worn and counts its next
 * erase, in a transaction like any other.
 *
 * Its library is libwear.a. It links beside libcrocktendril.a, in either order;
 * no symbol is in both.
 *
 * What the caller sees to is what crocktendril.h says, with the set in place of
 * the descriptions: its pointer is not null, also where its length is 0, and it
 * does not overlap the area. The operation is one call, and masked as one.
 */

#ifndef CROCKTENDRIL_WEAR_H
#define CROCKTENDRIL_WEAR_H

#include "crocktendril.h"

#ifdef __cplusplus
extern "C" {
#endif

/* Groups of a set are numbered 0 to g - 1, with g from 1 to this. */
#define CROCKTENDRIL_WEAR_GROUPS_MAX 8

/*
 * A set is described by 2 * g bytes, group by group: the number of the truth
 * cell that says whether the group is usable, then that of the whole-number
 * cell that counts its erases. No cell stands in it twice.
 *
 *     static const uint8_t set[CROCKTENDRIL_WEAR_SET_LENGTH(2)] = {0, 3, 1, 4};
 *
 * The longest set has 16 bytes.
 */
#define CROCKTENDRIL_WEAR_SET_LENGTH(g) (2 * (g))
#define CROCKTENDRIL_WEAR_SET_MAX 16

/*
 * Codes of the operation. The first in this order that applies is given. The
 * three that are defined here are its own, the others are those of a step.
 *
 *   DONE             0   a group is picked: kind WHOLE, word its number
 *   NOT_WELL_FORMED  1   these bytes are no area
 *   BAD_SET          32  the set has no byte, an odd number of bytes or more
 *                        than 16; or a cell in it is not below n, is there
 *                        twice, or is of the wrong kind
 *   NO_SUCH_SLOT     3   slot outside 1 to 8
 *   NOT_ALLOWED      4   the slot's transaction is not open with empty logs
 *   READ_HELD        14  a read was refused: another slot holds the cell. The
 *                        place is the cell's; kind WHOLE, word the holder
 *   READ_NEWER       10  a read was refused: the cell's stamp is above start.
 *                        The place is the cell's
 *   NEGATIVE_COUNT   33  a count is negative, be its group usable or not. The
 *                        place is that of the first such count
 *   NONE_LEFT        34  no group is both usable and below 2^31 - 1 erases
 *
 * A place is that of a cell in the set, from 0: group place / 2, its truth cell
 * if the place is even, its count if it is odd. With other codes it is 0. Kind
 * and word are 0 but for DONE and READ_HELD. The word of READ_HELD is that of a
 * step. CROCKTENDRIL_HOLDER takes it: another slot, which held the cell at the
 * place.
 *
 * WARNING: DONE and READ_HELD both have kind WHOLE. Look at the code before you
 * take the word for a group.
 *
 * 1, 32, 3 and 4 change no byte. 14 and 10 leave the reads before them in the
 * read log, 33 and 34 leave all of them, and none of the four writes anything:
 * give up. After 14, let the holder run, begin anew and try again, a few times.
 * After 10, begin anew at once: waiting does not help. After 33 trying again
 * does not help: the count has been damaged. After 34 it helps only once a
 * group has been made usable.
 */
#define CROCKTENDRIL_CODE_BAD_SET 32
#define CROCKTENDRIL_CODE_NEGATIVE_COUNT 33
#define CROCKTENDRIL_CODE_NONE_LEFT 34

/*
 * The operation's answer is one number, place * 2^48 + code * 2^40 +
 * kind * 2^32 + word. These macros take it apart. The CROCKTENDRIL_REPLY macros
 * are for the reply of a step, which has no place.
 *
 * WARNING: the code is not all that stands above bit 40, the place is there
 * too. Compare CROCKTENDRIL_WEAR_CODE of the answer, never the answer shifted.
 */
#define CROCKTENDRIL_WEAR_PLACE(answer) ((unsigned)((uint64_t)(answer) >> 48))
#define CROCKTENDRIL_WEAR_CODE(answer) ((unsigned)(((uint64_t)(answer) >> 40) & 255))
#define CROCKTENDRIL_WEAR_KIND(answer) ((unsigned)(((uint64_t)(answer) >> 32) & 255))
#define CROCKTENDRIL_WEAR_WORD(answer) ((uint32_t)((uint64_t)(answer) & 0xFFFFFFFF))

/*
 * Reads all cells of the set in its order, picks the usable group with the
 * fewest erases, the lowest number on a tie, and writes its count plus one: all
 * in the slot's transaction, which stays open. The count is shared once it is
 * closed, locked, entered, finished and published.
 *
 * The erases cell of the picked group is then in both logs. If ENTER marks it,
 * IGNORE gets MARKED_WRITTEN: RELOAD, and if the same group would be picked from
 * the reloaded values, UPDATE its count with the reloaded one plus one; else
 * give up and begin anew. Marks on other cells may be ignored. The count still
 * goes up by exactly one, but by then another group may be the least worn, or
 * the picked one no longer usable.
 */
uint64_t crocktendril_wear(uint8_t *area, size_t area_len, const uint8_t *set, size_t set_len,
                           uint8_t slot);

#ifdef __cplusplus
}
#endif

#endif
