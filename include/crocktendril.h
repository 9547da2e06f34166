/*
 * Crocktendril: transactions with a twilight zone, on shared cells.
 *
 * All state is in an area of bytes that the caller owns and lends to each
 * call. The library keeps nothing, allocates nothing, and calls nothing back.
 *
 * What the caller sees to:
 * - A pointer is not null, also where its length is 0, and the length is that
 *   of bytes which can be read, and written too if they are the area.
 * - Only one call uses an area at a time. Where tasks or interrupts share it,
 *   each call is masked; between two calls any slot may make its next step.
 * - Descriptions do not overlap the area.
 * Everything else may be any number: what is wrong gets a code.
 */

#ifndef CROCKTENDRIL_H
#define CROCKTENDRIL_H

#include <stddef.h>
#include <stdint.h>

#ifdef __cplusplus
extern "C" {
#endif

/* Cells are numbered 0 to n - 1, with n from 1 to this. */
#define CROCKTENDRIL_CELLS_MAX 64

/* Slots are numbered 1 to this. Each has one transaction at a time. */
#define CROCKTENDRIL_SLOTS 8

/* Most entries of a slot's read log, and of its write log. */
#define CROCKTENDRIL_LOG_MAX 16

/*
 * The length of the area of n cells, in bytes: 1604 for one, 2486 for 64.
 *
 *     static uint8_t area[CROCKTENDRIL_AREA_LENGTH(3)];
 *
 * Numbers are big-endian. Each line below gives the place of a field, its
 * length and what it is; indented places are within the part above them. Cells
 * c and entries e count from 0, slots s from 1.
 *
 *   0                      1    version, 1
 *   1                      4    length of the whole area
 *   5                      1    n, the number of cells
 *   6                      8    clock, the last stamp given
 *   14 + 14*c              14   cell c
 *     0                    1      kind
 *     1                    1      holder, a slot or 0 for none
 *     2                    4      word
 *     6                    8      stamp
 *   14 + 14*n + 197*(s-1)  197  slot s
 *     0                    1      phase: 0 idle, 1 open, 2 locking,
 *                                 3 twilight, 4 publishing
 *     1                    1      ignoring flag: 1 only if some read is marked,
 *                                 and no cell with a marked read is in the
 *                                 write log, published or not
 *     2                    1      taken: locks taken in phase 2, cells
 *                                 published in phase 4
 *     3                    1      read count
 *     4                    1      write count
 *     5                    8      start, the clock at begin
 *     13                   8      commit stamp
 *     21 + 6*e             6      read entry e, in order of first read
 *       0                  1        cell
 *       1                  1        mark
 *       2                  4        word
 *     117 + 5*e            5      write entry e, in ascending order of cell
 *       0                  1        cell
 *       1                  4        word
 *   1590 + 14*n                 end
 */
#define CROCKTENDRIL_AREA_LENGTH(n) (1590 + 14 * (n))

/*
 * Kinds, with the words that are legal for each. A cell never changes its
 * kind. NONE is the kind of a reply whose word says nothing.
 *
 *   TRUTH  0 or 1
 *   WHOLE  a 32-bit two's complement number
 *   REAL   the bits of a finite IEEE 754 binary32 number
 */
#define CROCKTENDRIL_KIND_NONE 0
#define CROCKTENDRIL_KIND_TRUTH 1
#define CROCKTENDRIL_KIND_WHOLE 2
#define CROCKTENDRIL_KIND_REAL 3

/*
 * Steps: the phase in which each is allowed, the arguments that it uses beside
 * its slot, and what it does. Other arguments are ignored. Most answer kind
 * and word 0 when they are done.
 *
 *   BEGIN    idle                     opens a transaction
 *   READ     open        cell         answers the cell's value and logs it
 *   WRITE    open        cell, value  logs the value (its kind and word)
 *   CLOSE    open                     goes on to locking
 *   LOCK     locking                  takes the lowest cell of the write log
 *                                     not yet taken; some must be missing
 *   ENTER    locking                  gives a commit stamp, marks the reads that
 *                                     are out of date, goes on to twilight; no
 *                                     lock may be missing. Answers a truth
 *                                     value, 1 if nothing is marked
 *   REREAD   twilight    cell         answers the logged read
 *   UPDATE   twilight    cell, value  replaces a logged write
 *   ASK      twilight    cell         answers a truth value, 1 if the read of
 *                                     the cell is marked
 *   RELOAD   twilight                 logs the present values of all cells that
 *                                     were read, clears marks and flag, gives
 *                                     a new commit stamp; logged writes stay
 *                                     as they were
 *   IGNORE   twilight                 lets FINISH commit in spite of marks, all of
 *                                     them at once; but see MARKED_WRITTEN.
 *                                     Without a mark it changes nothing
 *   FINISH   twilight                 commits, and goes on to publishing, or to
 *                                     idle if nothing was written; with a mark
 *                                     that is not ignored, see ABORTED
 *   PUBLISH  publishing               publishes the lowest cell of the write log
 *                                     not yet published; idle after the last
 *   GIVE_UP  open, locking, twilight  frees all cells it holds, and is idle
 */
#define CROCKTENDRIL_STEP_BEGIN 1
#define CROCKTENDRIL_STEP_READ 2
#define CROCKTENDRIL_STEP_WRITE 3
#define CROCKTENDRIL_STEP_CLOSE 4
#define CROCKTENDRIL_STEP_LOCK 5
#define CROCKTENDRIL_STEP_ENTER 6
#define CROCKTENDRIL_STEP_REREAD 7
#define CROCKTENDRIL_STEP_UPDATE 8
#define CROCKTENDRIL_STEP_ASK 9
#define CROCKTENDRIL_STEP_RELOAD 10
#define CROCKTENDRIL_STEP_IGNORE 11
#define CROCKTENDRIL_STEP_FINISH 12
#define CROCKTENDRIL_STEP_PUBLISH 13
#define CROCKTENDRIL_STEP_GIVE_UP 14

/*
 * Codes of a step's reply. Every code but DONE and ABORTED is a refusal: no
 * byte of the area has changed. Kind and word are then 0, but for
 * HELD_BY_ANOTHER and READ_HELD, which say who is in the way. ABORTED is no
 * refusal but an outcome, with kind and word 0.
 *
 * Of those that apply the lowest is given; but READ_HELD is tested before
 * READ_NEWER, after LOG_FULL, and MARKED_WRITTEN next after NOT_ALLOWED.
 *
 * WARNING: HELD_BY_ANOTHER and READ_HELD have kind WHOLE, and their word is
 * no cell's value. Look at the code before you take the word for a value.
 *
 *   DONE             the step is made
 *   NOT_WELL_FORMED  these bytes are no area
 *   NO_SUCH_STEP     step outside 1 to 14
 *   NO_SUCH_SLOT     slot outside 1 to 8
 *   NOT_ALLOWED      the slot's phase does not allow the step
 *   NO_SUCH_CELL     cell not below n
 *   ILLEGAL_VALUE    kind outside 1 to 3, or a word that is illegal for it
 *   OTHER_KIND       the cell is of another kind
 *   NOT_IN_LOG       REREAD, ASK: the cell is not in the read log; UPDATE: it
 *                    is not in the write log
 *   LOG_FULL         READ, WRITE: the log has 16 entries, and needs one more
 *   READ_NEWER       READ: the cell's stamp is above start. Waiting never
 *                    helps: give up. A transaction begun anew can read it,
 *                    unless the cell is held or written again
 *   HELD_BY_ANOTHER  LOCK: another slot holds the cell; RELOAD: another slot
 *                    holds a cell that was read. Kind WHOLE, word
 *                    cell * 256 + holder; for RELOAD of the first such cell in
 *                    the order in which they were read. Let the holder run and
 *                    try again. But two slots can each hold what the other has
 *                    read, and a LOCK and a RELOAD can wait for each other:
 *                    count the tries, and after a while give up
 *   LAST_STAMP       ENTER, RELOAD: the clock can't go on
 *   ABORTED          FINISH met a mark that is not ignored: the transaction has
 *                    ended without commit, and the slot and its cells are free
 *   READ_HELD        READ: another slot holds the cell. Kind WHOLE, word the
 *                    holder. Let it run and try again, a few times; then give
 *                    up. Once the cell is free, the read is done or gets
 *                    READ_NEWER
 *   MARKED_WRITTEN   IGNORE: some marked cell is also in the slot's write log.
 *                    Committed, that write would undo what another slot has
 *                    published since the read. RELOAD, REREAD the cell, UPDATE
 *                    it with what follows from its present value, FINISH; or
 *                    give up and begin anew. Trying again never helps. A FINISH
 *                    without RELOAD gets ABORTED; one after RELOAD but without
 *                    UPDATE commits the write as it was
 */
#define CROCKTENDRIL_CODE_DONE 0
#define CROCKTENDRIL_CODE_NOT_WELL_FORMED 1
#define CROCKTENDRIL_CODE_NO_SUCH_STEP 2
#define CROCKTENDRIL_CODE_NO_SUCH_SLOT 3
#define CROCKTENDRIL_CODE_NOT_ALLOWED 4
#define CROCKTENDRIL_CODE_NO_SUCH_CELL 5
#define CROCKTENDRIL_CODE_ILLEGAL_VALUE 6
#define CROCKTENDRIL_CODE_OTHER_KIND 7
#define CROCKTENDRIL_CODE_NOT_IN_LOG 8
#define CROCKTENDRIL_CODE_LOG_FULL 9
#define CROCKTENDRIL_CODE_READ_NEWER 10
#define CROCKTENDRIL_CODE_HELD_BY_ANOTHER 11
#define CROCKTENDRIL_CODE_LAST_STAMP 12
#define CROCKTENDRIL_CODE_ABORTED 13
#define CROCKTENDRIL_CODE_READ_HELD 14
#define CROCKTENDRIL_CODE_MARKED_WRITTEN 15

/*
 * A step's reply is one number, code * 2^40 + kind * 2^32 + word. These macros
 * take it apart.
 *
 * WARNING: they are not for the answer of crocktendril_lay_out, which is not
 * put together so. CROCKTENDRIL_REPLY_CODE would say 0 of each of its answers,
 * as if the lay-out were always done.
 */
#define CROCKTENDRIL_REPLY_CODE(reply) ((unsigned)(((uint64_t)(reply) >> 40) & 255))
#define CROCKTENDRIL_REPLY_KIND(reply) ((unsigned)(((uint64_t)(reply) >> 32) & 255))
#define CROCKTENDRIL_REPLY_WORD(reply) ((uint32_t)((uint64_t)(reply) & 0xFFFFFFFF))

/*
 * Who is in the way: these macros take it out of a reply's word. The holder is
 * in the word of HELD_BY_ANOTHER and of READ_HELD, the held cell in that of
 * HELD_BY_ANOTHER alone: after READ_HELD it is the cell that was to be read.
 *
 * WARNING: CROCKTENDRIL_HELD_CELL would say 0 of each READ_HELD, as if it were
 * cell 0.
 *
 * What they say can be relied on: the holder is a slot from 1 to 8 other than
 * the one that made the call, and it held that cell when the call was made.
 */
#define CROCKTENDRIL_HOLDER(word) ((unsigned)((uint32_t)(word) & 255))
#define CROCKTENDRIL_HELD_CELL(word) ((unsigned)((uint32_t)(word) >> 8))

/* Makes one step of one slot on the area, and answers its reply. */
uint64_t crocktendril_step(uint8_t *area, size_t area_len, uint8_t step, uint8_t slot,
                           uint8_t cell, uint8_t kind, uint32_t word);

/*
 * Answers of crocktendril_lay_out.
 *
 * WARNING: the answer is one of these numbers as it stands. Compare it with
 * them, and keep it away from the CROCKTENDRIL_REPLY macros.
 *
 *   DONE           the area is laid out
 *   WRONG_LENGTH   the descriptions are not 5 * n bytes with n from 1 to 64, or
 *                  the area has not the length for n cells
 *   ILLEGAL_VALUE  kind outside 1 to 3, or a word that is illegal for it
 */
#define CROCKTENDRIL_LAY_OUT_DONE 0
#define CROCKTENDRIL_LAY_OUT_WRONG_LENGTH 1
#define CROCKTENDRIL_LAY_OUT_ILLEGAL_VALUE 6

/* A cell is described by 5 bytes: its kind, then its word, big-endian. */
#define CROCKTENDRIL_DESCRIPTION_LENGTH 5

/*
 * Lays out a fresh area from the descriptions of n cells, one behind the
 * other: clock and stamps 0, all slots idle. A refusal writes nothing.
 */
uint64_t crocktendril_lay_out(uint8_t *area, size_t area_len, const uint8_t *descriptions,
                              size_t descriptions_len);

#ifdef __cplusplus
}
#endif

#endif
