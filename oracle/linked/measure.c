/*
 * Makes the steps that are on standard input, each on its own area: 2,486
 * bytes of area and 8 of the step (step, slot, cell, kind, word), as `bench
 * cases` and `bench sheet` write them.
 *
 *   measure calls   makes each step and prints its number and its code, for
 *                   callgrind to count what it takes
 *   measure stack   makes each step on a painted stack, and a lay-out, and
 *                   prints the most bytes of stack that each needed; fails
 *                   above 1 KB
 *
 * Or makes the wear task's operations that are there, as `bench wear` writes
 * them: 2,486 bytes of area, the slot, the length of the set, 16 for the set.
 *
 *   measure wear-calls  makes each and prints the number of its groups and its
 *                       code, likewise
 *   measure wear-stack  prints the most bytes of stack that one of them needed
 *
 * It is to be linked with -z now: the first call of a function of the C library
 * would else be charged with looking it up.
 */

#define _XOPEN_SOURCE 700

#include <stdio.h>
#include <string.h>
#include <ucontext.h>

#include "crocktendril.h"
#include "crocktendril_wear.h"

#define AREA_LENGTH CROCKTENDRIL_AREA_LENGTH(CROCKTENDRIL_CELLS_MAX)
#define STEPS 14
#define SET_MAX 16
#define STACK_LENGTH 65536
#define STACK_ALLOWED 1024

typedef uint64_t step_function(uint8_t *area, size_t area_len, uint8_t step, uint8_t slot,
                               uint8_t cell, uint8_t kind, uint32_t word);

struct record {
    uint8_t area[AREA_LENGTH];
    uint8_t call[8];
};

struct wear_record {
    uint8_t area[AREA_LENGTH];
    uint8_t slot, set_length;
    uint8_t set[SET_MAX];
};

static struct record present;
static struct wear_record present_wear;
static step_function *present_function;
static uint64_t present_reply;

static unsigned char painted[STACK_LENGTH];
static ucontext_t outside, inside;

static void make_step(void)
{
    const uint8_t *call = present.call;
    uint32_t high = (uint32_t)call[4] << 8 | call[5], low = (uint32_t)call[6] << 8 | call[7];

    present_reply = present_function(present.area, AREA_LENGTH, call[0], call[1], call[2], call[3],
                                     high << 16 | low);
}

/* A step that does nothing: what is painted over then is not the step's. */
static uint64_t nothing(uint8_t *area, size_t area_len, uint8_t step, uint8_t slot, uint8_t cell,
                        uint8_t kind, uint32_t word)
{
    (void)area, (void)area_len, (void)step, (void)slot, (void)cell, (void)kind, (void)word;
    return 0;
}

/* The largest lay-out, with the arguments of a step. */
static uint64_t lay_out(uint8_t *area, size_t area_len, uint8_t step, uint8_t slot, uint8_t cell,
                        uint8_t kind, uint32_t word)
{
    static uint8_t descriptions[CROCKTENDRIL_CELLS_MAX * CROCKTENDRIL_DESCRIPTION_LENGTH];

    (void)step, (void)slot, (void)cell, (void)kind, (void)word;
    memset(descriptions, CROCKTENDRIL_KIND_WHOLE, sizeof descriptions);
    return crocktendril_lay_out(area, area_len, descriptions, sizeof descriptions);
}

/* The wear task's operation, with the arguments of a step. */
static uint64_t wear(uint8_t *area, size_t area_len, uint8_t step, uint8_t slot, uint8_t cell,
                     uint8_t kind, uint32_t word)
{
    (void)step, (void)slot, (void)cell, (void)kind, (void)word;
    return crocktendril_wear(area, area_len, present_wear.set, present_wear.set_length,
                             present_wear.slot);
}

/* Leaves by a switch and not by a return: that would use this stack again. */
static void on_painted_stack(void)
{
    make_step();
    swapcontext(&inside, &outside);
}

/* The bytes that the function's call used of a stack painted in this colour. */
static size_t used(step_function *function, unsigned char colour)
{
    struct record before = present;
    size_t untouched = 0;

    present_function = function;
    memset(painted, colour, sizeof painted);
    getcontext(&inside);
    inside.uc_stack.ss_sp = painted;
    inside.uc_stack.ss_size = sizeof painted;
    inside.uc_link = &outside;
    makecontext(&inside, on_painted_stack, 0);
    swapcontext(&outside, &inside);
    while (untouched < sizeof painted && painted[untouched] == colour)
        untouched++;
    present = before;
    return sizeof painted - untouched;
}

static size_t greater(size_t one, size_t other)
{
    return one > other ? one : other;
}

/* Two colours, lest a byte that the step writes has the colour by chance. */
static size_t deepest(step_function *function)
{
    return greater(used(function, 0xa5), used(function, 0x5a));
}

/* The return address of the call counts as the function's, hence the 8. */
static size_t stack_of(step_function *function)
{
    return deepest(function) - deepest(nothing) + 8;
}

static int next_record(void)
{
    return fread(&present, sizeof present, 1, stdin) == 1;
}

static int next_wear_record(void)
{
    if (fread(&present_wear, sizeof present_wear, 1, stdin) != 1)
        return 0;
    memcpy(present.area, present_wear.area, sizeof present.area);
    return 1;
}

static int calls(void)
{
    present_function = crocktendril_step;
    while (next_record()) {
        make_step();
        printf("%u %u\n", (unsigned)present.call[0], CROCKTENDRIL_REPLY_CODE(present_reply));
    }
    return 0;
}

static int stack(void)
{
    size_t most[STEPS + 1] = {0}, worst = stack_of(lay_out);
    unsigned step;

    printf("stack of a call in bytes, the most of each step (0: no such step):\n");
    printf("lay-out: %lu\n", (unsigned long)worst);
    while (next_record()) {
        step = present.call[0] <= STEPS ? present.call[0] : 0;
        most[step] = greater(most[step], stack_of(crocktendril_step));
    }
    for (step = 0; step <= STEPS; step++) {
        printf("step %2u: %lu\n", step, (unsigned long)most[step]);
        worst = greater(worst, most[step]);
    }
    printf("worst of all: %lu, allowed: %d\n", (unsigned long)worst, STACK_ALLOWED);
    return worst > STACK_ALLOWED;
}

/* The place stands above the code. */
static int wear_calls(void)
{
    present_function = wear;
    while (next_wear_record()) {
        make_step();
        printf("%u %u\n", present_wear.set_length / 2u, (unsigned)(present_reply >> 40 & 0xff));
    }
    return 0;
}

static int wear_stack(void)
{
    size_t worst = 0;

    while (next_wear_record())
        worst = greater(worst, stack_of(wear));
    printf("stack of a wear call in bytes: %lu\n", (unsigned long)worst);
    return worst == 0;
}

int main(int count, char **words)
{
    const char *mode = count == 2 ? words[1] : "";

    if (strcmp(mode, "calls") == 0)
        return calls();
    if (strcmp(mode, "stack") == 0)
        return stack();
    if (strcmp(mode, "wear-calls") == 0)
        return wear_calls();
    if (strcmp(mode, "wear-stack") == 0)
        return wear_stack();
    fprintf(stderr, "usage: measure calls|stack|wear-calls|wear-stack\n");
    return 2;
}
