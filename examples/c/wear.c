/*
 * Two tasks of a small controller that level the wear of one module.
 *
 * The module is new and has three block groups, of which one is not usable. A
 * task that needs a group picks the least worn one, which counts its erase, and
 * commits. Here both read the same counts and so pick the same group. Only one
 * of them commits: the other learns of it, drops its work, begins again, and
 * picks the group that is then the least worn. So each erase is counted.
 *
 * The tasks take turns. A turn is one call, as between two ticks of a
 * scheduler. What is picked, committed, refused or out of date is printed, and
 * by whom a cell is held.
 */

#include <stdio.h>

#include "crocktendril_wear.h"

/* The cells: first whether each group is usable, then how often it was erased. */
#define GROUPS 3
#define USABLE(group) (group)
#define ERASES(group) (GROUPS + (group))
#define CELLS (2 * GROUPS)

/* The tasks, by their slots. */
#define LOGGER 1
#define RECIPES 2
#define MONITOR 3
#define TASKS 3

/* What a task does in its next turn: a step, or one of these. */
#define AT_REST 0
#define WEAR 255

/* A task that is refused so often in a row, by a cell that is held or newer,
   drops its work. */
#define PATIENCE 5

struct task {
    uint8_t slot;
    uint8_t next;
    unsigned wanted; /* groups that it still needs */
    unsigned group;  /* the last one that it picked */
    int refused;     /* how often in a row */
};

/* The one area. On a controller it may be in battery-backed memory. */
static uint8_t area[CROCKTENDRIL_AREA_LENGTH(CELLS)];

static const uint8_t descriptions[CELLS * CROCKTENDRIL_DESCRIPTION_LENGTH] = {
    CROCKTENDRIL_KIND_TRUTH, 0, 0, 0, 1, /* group 0 is usable */
    CROCKTENDRIL_KIND_TRUTH, 0, 0, 0, 0, /* group 1 is not */
    CROCKTENDRIL_KIND_TRUTH, 0, 0, 0, 1, /* group 2 is usable */
    CROCKTENDRIL_KIND_WHOLE, 0, 0, 0, 0, /* the erases of group 0 */
    CROCKTENDRIL_KIND_WHOLE, 0, 0, 0, 0, /* of group 1 */
    CROCKTENDRIL_KIND_WHOLE, 0, 0, 0, 0  /* of group 2 */
};

/* The wear set: of each group the truth cell, then the count. */
static const uint8_t set[CROCKTENDRIL_WEAR_SET_LENGTH(GROUPS)] = {
    USABLE(0), ERASES(0), USABLE(1), ERASES(1), USABLE(2), ERASES(2)};

static const char *const code_names[] = {
    "done",         "not well formed", "no such step", "no such slot",   "not allowed",
    "no such cell", "illegal value",   "other kind",   "not in the log", "log full",
    "newer",        "held by another", "last stamp",   "aborted",        "held",
    "marked and written"};

/* By slot, from 1. */
static const char *const task_names[TASKS] = {"logger", "recipes", "monitor"};

/* Commits of all tasks. */
static unsigned commits;

/* A code's name, or its number if it has no name here. */
static void print_code(unsigned code)
{
    switch (code) {
    case CROCKTENDRIL_CODE_BAD_SET:
        printf("bad set");
        break;
    case CROCKTENDRIL_CODE_NEGATIVE_COUNT:
        printf("negative count");
        break;
    case CROCKTENDRIL_CODE_NONE_LEFT:
        printf("none left");
        break;
    default:
        if (code < sizeof code_names / sizeof code_names[0])
            printf("%s", code_names[code]);
        else
            printf("code %u", code);
    }
}

static const char *task_name(unsigned slot)
{
    return slot >= 1 && slot <= TASKS ? task_names[slot - 1] : "no task";
}

static void print_cell(unsigned cell)
{
    printf("the %s of group %u", cell < GROUPS ? "truth cell" : "erases", cell % GROUPS);
}

/* Makes one step and answers its reply. Where tasks interrupt each other, the
   call is masked. */
static uint64_t make(const struct task *task, uint8_t step, uint8_t cell)
{
    return crocktendril_step(area, sizeof area, step, task->slot, cell, CROCKTENDRIL_KIND_NONE, 0);
}

static void print_refusal(unsigned code, uint32_t word)
{
    print_code(code);
    if (code == CROCKTENDRIL_CODE_HELD_BY_ANOTHER) {
        printf(": ");
        print_cell(CROCKTENDRIL_HELD_CELL(word));
        printf(", by %s", task_name(CROCKTENDRIL_HOLDER(word)));
    }
    printf("\n");
}

/* Answers the code of a reply. It is printed if the step is not done. */
static unsigned code_of(const struct task *task, const char *name, uint64_t reply)
{
    unsigned code = CROCKTENDRIL_REPLY_CODE(reply);

    if (code != CROCKTENDRIL_CODE_DONE) {
        printf("%-7s  %-6s  ", task_name(task->slot), name);
        print_refusal(code, CROCKTENDRIL_REPLY_WORD(reply));
    }
    return code;
}

/* Makes a step that takes its slot alone and answers its code. */
static unsigned take(const struct task *task, uint8_t step, const char *name)
{
    return code_of(task, name, make(task, step, 0));
}

/* What the operation answered, if it picked no group. */
static void print_no_pick(uint64_t answer)
{
    unsigned code = CROCKTENDRIL_WEAR_CODE(answer), place = CROCKTENDRIL_WEAR_PLACE(answer);

    print_code(code);
    switch (code) {
    case CROCKTENDRIL_CODE_READ_HELD:
    case CROCKTENDRIL_CODE_READ_NEWER:
    case CROCKTENDRIL_CODE_NEGATIVE_COUNT:
        printf(" at place %u, ", place);
        print_cell(set[place]);
    }
    if (code == CROCKTENDRIL_CODE_READ_HELD)
        printf(", by %s", task_name(CROCKTENDRIL_HOLDER(CROCKTENDRIL_WEAR_WORD(answer))));
    printf("\n");
}

/* The code comes first: the word is a group only if it is done. */
static void print_answer(const struct task *task, uint64_t answer)
{
    printf("%-7s  wear    ", task_name(task->slot));
    if (CROCKTENDRIL_WEAR_CODE(answer) == CROCKTENDRIL_CODE_DONE)
        printf("picked group %lu\n", (unsigned long)CROCKTENDRIL_WEAR_WORD(answer));
    else
        print_no_pick(answer);
}

/* Drops the work for good: trying again would not help. */
static uint8_t leave(struct task *task)
{
    task->wanted = 0;
    return CROCKTENDRIL_STEP_GIVE_UP;
}

/* What comes after a call that is done. */
static uint8_t go_on(struct task *task, uint8_t next)
{
    task->refused = 0;
    return next;
}

/* What comes after a refusal that trying again may mend, if patience is left. */
static uint8_t again(struct task *task, uint8_t next)
{
    return ++task->refused < PATIENCE ? next : leave(task);
}

/* Picks a group. A refusal leaves reads in the log, so the task gives up before
   it tries again. That helps after two of the refusals: a cell that is held
   will be free, as the holder has turns too, and one that is newer than this
   transaction is not newer than the next. Newer is not met here: in the one
   turn between its begin and its pick nobody can both enter and publish. */
static uint8_t wear(struct task *task)
{
    uint64_t answer = crocktendril_wear(area, sizeof area, set, sizeof set, task->slot);

    print_answer(task, answer);
    switch (CROCKTENDRIL_WEAR_CODE(answer)) {
    case CROCKTENDRIL_CODE_DONE:
        task->group = (unsigned)CROCKTENDRIL_WEAR_WORD(answer);
        return go_on(task, CROCKTENDRIL_STEP_CLOSE);
    case CROCKTENDRIL_CODE_READ_HELD:
    case CROCKTENDRIL_CODE_READ_NEWER:
        return again(task, CROCKTENDRIL_STEP_GIVE_UP);
    default:
        return leave(task);
    }
}

/* Takes the one cell that is written. Held by another: once more at the next
   turn. */
static uint8_t lock(struct task *task)
{
    switch (take(task, CROCKTENDRIL_STEP_LOCK, "lock")) {
    case CROCKTENDRIL_CODE_DONE:
        return go_on(task, CROCKTENDRIL_STEP_ENTER);
    case CROCKTENDRIL_CODE_HELD_BY_ANOTHER:
        return again(task, CROCKTENDRIL_STEP_LOCK);
    default:
        return leave(task);
    }
}

static uint8_t enter(struct task *task)
{
    uint64_t reply = make(task, CROCKTENDRIL_STEP_ENTER, 0);

    /* Without a stamp the word says nothing, and the last one may be given. */
    if (code_of(task, "enter", reply) != CROCKTENDRIL_CODE_DONE)
        return leave(task);
    /* It answers 0 if something that was read is out of date. */
    if (CROCKTENDRIL_REPLY_WORD(reply) == 0)
        printf("%-7s  enter   a cell that was read is out of date\n", task_name(task->slot));
    return CROCKTENDRIL_STEP_FINISH;
}

/* Commits. With a mark the transaction is aborted instead, and begins again.
   Here it is the picked count that is marked, so to ignore it would be refused. */
static uint8_t finish(struct task *task)
{
    switch (take(task, CROCKTENDRIL_STEP_FINISH, "finish")) {
    case CROCKTENDRIL_CODE_DONE:
        break;
    case CROCKTENDRIL_CODE_ABORTED:
        return CROCKTENDRIL_STEP_BEGIN;
    default:
        return leave(task);
    }
    printf("%-7s  finish  committed, group %u\n", task_name(task->slot), task->group);
    task->wanted--;
    commits++;
    return CROCKTENDRIL_STEP_PUBLISH;
}

/* Makes the call that the task has next, and answers the one after it. */
static uint8_t turn(struct task *task)
{
    switch (task->next) {
    case CROCKTENDRIL_STEP_BEGIN:
        take(task, CROCKTENDRIL_STEP_BEGIN, "begin");
        return WEAR;
    case WEAR:
        return wear(task);
    case CROCKTENDRIL_STEP_CLOSE:
        take(task, CROCKTENDRIL_STEP_CLOSE, "close");
        return CROCKTENDRIL_STEP_LOCK;
    case CROCKTENDRIL_STEP_LOCK:
        return lock(task);
    case CROCKTENDRIL_STEP_ENTER:
        return enter(task);
    case CROCKTENDRIL_STEP_FINISH:
        return finish(task);
    case CROCKTENDRIL_STEP_PUBLISH:
        take(task, CROCKTENDRIL_STEP_PUBLISH, "publish");
        break;
    default:
        take(task, CROCKTENDRIL_STEP_GIVE_UP, "give up");
    }
    /* It is idle now. */
    return task->wanted > 0 ? CROCKTENDRIL_STEP_BEGIN : AT_REST;
}

/* Reads a cell, where it is known to be done. Answers its word. */
static unsigned long read_word(const struct task *task, uint8_t cell)
{
    return CROCKTENDRIL_REPLY_WORD(make(task, CROCKTENDRIL_STEP_READ, cell));
}

/* Reads all cells in one transaction, so that they are of one moment. Answers
   the sum of the counts. */
static unsigned long monitor(void)
{
    struct task task = {MONITOR, AT_REST, 0, 0, 0};
    unsigned long erases, sum = 0;
    unsigned group;

    take(&task, CROCKTENDRIL_STEP_BEGIN, "begin");
    for (group = 0; group < GROUPS; group++) {
        erases = read_word(&task, (uint8_t)ERASES(group));
        printf("group %u: %s, erases %lu\n", group,
               read_word(&task, (uint8_t)USABLE(group)) ? "usable" : "not usable", erases);
        sum += erases;
    }
    take(&task, CROCKTENDRIL_STEP_GIVE_UP, "give up");
    return sum;
}

int main(void)
{
    struct task logger = {LOGGER, CROCKTENDRIL_STEP_BEGIN, 2, 0, 0};
    struct task recipes = {RECIPES, CROCKTENDRIL_STEP_BEGIN, 1, 0, 0};
    unsigned long erases;

    /* The answer of a lay-out is compared as it stands. */
    if (crocktendril_lay_out(area, sizeof area, descriptions, sizeof descriptions) !=
        CROCKTENDRIL_LAY_OUT_DONE)
        return 1;
    while (logger.next != AT_REST || recipes.next != AT_REST) {
        if (logger.next != AT_REST)
            logger.next = turn(&logger);
        if (recipes.next != AT_REST)
            recipes.next = turn(&recipes);
    }
    erases = monitor();
    printf("%u commits, %lu erases: %s\n", commits, erases,
           erases == commits ? "no count was lost" : "counts were lost");
    return erases == commits ? 0 : 1;
}
