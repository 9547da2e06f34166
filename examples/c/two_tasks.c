/*
 * Two tasks of a small controller that share two cells, and one that looks on;
 * then two that add to one total.
 *
 * The regulator keeps the valve at twice the setpoint. While it works one out,
 * the panel changes the setpoint. The regulator learns of it in the twilight
 * zone, reloads, works out the valve anew, and publishes: nothing that it did
 * before has to be undone, and the panel never waits for it.
 *
 * The monitor comes while the regulator holds the valve. The reply says who is
 * in the way. Held means wait: the monitor tries again at its next turn. Newer
 * means give up: it begins anew, and then can read the valve.
 *
 * Two filling lines add to the total what they have filled. Both read the same
 * total. The west line is the later one. It takes its read as good enough and
 * would ignore that it is out of date; but it writes the cell as well, so the
 * east line's increment would be lost, and ignoring is refused. It reloads,
 * adds anew, and both increments are in the total.
 *
 * The tasks take turns. A turn is one step, as between two ticks of a
 * scheduler. Every reply is printed.
 */

#include <stdio.h>

#include "crocktendril.h"

/* The cells. */
#define SETPOINT 0
#define VALVE 1
#define TOTAL 2
#define CELLS 3

#define FIRST_TOTAL 100

/* The monitor looks at the cells before this one. */
#define LOOKED_AT TOTAL

/* The tasks, by their slots. */
#define REGULATOR 1
#define PANEL 2
#define MONITOR 3
#define EAST 4
#define WEST 5

/* The step that a task has next if it has none. */
#define AT_REST 0

/* A step that finds a cell held so often in a row is given up: two tasks could
   otherwise wait for each other for ever. */
#define PATIENCE 5

/* So many rounds are more than enough. */
#define ROUNDS 40

/* A task that works out a cell writes times * from + plus. */
struct work {
    uint8_t from;
    uint8_t to;
    uint32_t times;
    uint32_t plus;
    uint8_t if_marked; /* the step that it makes if its read is out of date */
};

struct task {
    uint8_t slot;
    unsigned comes;  /* the round of its first turn */
    uint8_t next;    /* the step that it makes in its next turn */
    uint32_t answer; /* the word that its last step answered when it was done */
    int refused;     /* how often in a row a cell was held */
};

/* The one area. On a controller it may be in battery-backed memory. */
static uint8_t area[CROCKTENDRIL_AREA_LENGTH(CELLS)];

static const uint8_t descriptions[CELLS * CROCKTENDRIL_DESCRIPTION_LENGTH] = {
    CROCKTENDRIL_KIND_WHOLE, 0, 0, 0, 50, /* the setpoint */
    CROCKTENDRIL_KIND_WHOLE, 0, 0, 0, 0,  /* the valve */
    CROCKTENDRIL_KIND_WHOLE, 0, 0, 0, FIRST_TOTAL
};

static const struct work valve = {SETPOINT, VALVE, 2, 0, CROCKTENDRIL_STEP_RELOAD};
static const struct work east_fills = {TOTAL, TOTAL, 1, 5, CROCKTENDRIL_STEP_IGNORE};
static const struct work west_fills = {TOTAL, TOTAL, 1, 7, CROCKTENDRIL_STEP_IGNORE};

/* What the monitor has seen, cell by cell, and how many cells. */
static uint32_t seen[LOOKED_AT];
static uint8_t seen_cells;

static const char *const cell_names[] = {"setpoint", "valve", "total"};

/* By slot. */
static const char *const task_names[] = {"",        "regulator", "panel",
                                         "monitor", "east line", "west line"};

static const char *const step_names[] = {
    "",       "begin",  "read", "write",  "close",  "lock",   "enter",  "reread",
    "update", "ask",    "reload", "ignore", "finish", "publish", "give up"};

static const char *const code_names[] = {
    "done",         "not well formed", "no such step", "no such slot",   "not allowed",
    "no such cell", "illegal value",   "other kind",   "not in the log", "log full",
    "newer",        "held by another", "last stamp",   "aborted",        "held",
    "marked and written"};

/* A later library may have more codes than there are names here. */
#define NAME(names, number) name_in(names, sizeof(names) / sizeof(names)[0], number)

static const char *name_in(const char *const *names, size_t count, unsigned number)
{
    return number < count ? names[number] : "without a name";
}

static void print_step(const struct task *task, uint8_t step, uint8_t cell, uint32_t word)
{
    const char *name = NAME(step_names, step);
    char words[40];

    switch (step) {
    case CROCKTENDRIL_STEP_READ:
    case CROCKTENDRIL_STEP_REREAD:
        sprintf(words, "%s %s", name, NAME(cell_names, cell));
        break;
    case CROCKTENDRIL_STEP_WRITE:
    case CROCKTENDRIL_STEP_UPDATE:
        sprintf(words, "%s %s %lu", name, NAME(cell_names, cell), (unsigned long)word);
        break;
    default:
        sprintf(words, "%s", name);
    }
    printf("%-9s  %-17s  ", NAME(task_names, task->slot), words);
}

static void print_holder(unsigned holder, unsigned cell)
{
    printf(": the %s holds the %s", NAME(task_names, holder), NAME(cell_names, cell));
}

/* The code comes first: with some codes the word is no value. */
static void print_reply(uint64_t reply, uint8_t cell)
{
    unsigned code = CROCKTENDRIL_REPLY_CODE(reply);
    uint32_t word = CROCKTENDRIL_REPLY_WORD(reply);

    printf("%s", NAME(code_names, code));
    if (code == CROCKTENDRIL_CODE_READ_HELD)
        print_holder(CROCKTENDRIL_HOLDER(word), cell);
    else if (code == CROCKTENDRIL_CODE_HELD_BY_ANOTHER)
        print_holder(CROCKTENDRIL_HOLDER(word), CROCKTENDRIL_HELD_CELL(word));
    else if (CROCKTENDRIL_REPLY_KIND(reply) == CROCKTENDRIL_KIND_TRUTH)
        printf(", truth %lu", (unsigned long)word);
    else if (CROCKTENDRIL_REPLY_KIND(reply) == CROCKTENDRIL_KIND_WHOLE)
        printf(", whole %lu", (unsigned long)word);
    printf("\n");
}

/* Makes one step and answers its code. Where tasks interrupt each other, the
   call is masked. */
static unsigned make(struct task *task, uint8_t step, uint8_t cell, uint32_t word)
{
    uint64_t reply = crocktendril_step(area, sizeof area, step, task->slot, cell,
                                       CROCKTENDRIL_KIND_WHOLE, word);

    print_step(task, step, cell, word);
    print_reply(reply, cell);
    if (CROCKTENDRIL_REPLY_CODE(reply) == CROCKTENDRIL_CODE_DONE)
        task->answer = CROCKTENDRIL_REPLY_WORD(reply);
    return CROCKTENDRIL_REPLY_CODE(reply);
}

/* The step that a task has next, after one that got this code: what is due if
   it was done. Held means wait, that is the same step once more: by the next
   turn the holder has had its own. All else, newer among it, means give up. */
static uint8_t after(struct task *task, unsigned code, uint8_t due)
{
    switch (code) {
    case CROCKTENDRIL_CODE_DONE:
        task->refused = 0;
        return due;
    case CROCKTENDRIL_CODE_READ_HELD:
    case CROCKTENDRIL_CODE_HELD_BY_ANOTHER:
        task->refused++;
        return task->refused < PATIENCE ? task->next : CROCKTENDRIL_STEP_GIVE_UP;
    case CROCKTENDRIL_CODE_ABORTED:
        return CROCKTENDRIL_STEP_BEGIN; /* there is nothing to give up */
    default:
        return CROCKTENDRIL_STEP_GIVE_UP;
    }
}

/* Makes a step without arguments and answers the next one. Who writes, writes
   one cell, so one lock and one publish do. */
static uint8_t make_usual(struct task *task)
{
    unsigned code = make(task, task->next, 0, 0);

    switch (task->next) {
    case CROCKTENDRIL_STEP_CLOSE:
        return after(task, code, CROCKTENDRIL_STEP_LOCK);
    case CROCKTENDRIL_STEP_LOCK:
        return after(task, code, CROCKTENDRIL_STEP_ENTER);
    case CROCKTENDRIL_STEP_ENTER:
        return after(task, code, CROCKTENDRIL_STEP_FINISH);
    case CROCKTENDRIL_STEP_FINISH:
        return after(task, code, CROCKTENDRIL_STEP_PUBLISH);
    case CROCKTENDRIL_STEP_GIVE_UP:
        task->refused = 0;
        return CROCKTENDRIL_STEP_BEGIN;
    default:
        return AT_REST;
    }
}

/* The panel sets the setpoint to 60, whatever it was. */
static uint8_t panel_turn(struct task *panel)
{
    switch (panel->next) {
    case CROCKTENDRIL_STEP_BEGIN:
        return after(panel, make(panel, CROCKTENDRIL_STEP_BEGIN, 0, 0), CROCKTENDRIL_STEP_WRITE);
    case CROCKTENDRIL_STEP_WRITE:
        return after(panel, make(panel, CROCKTENDRIL_STEP_WRITE, SETPOINT, 60),
                     CROCKTENDRIL_STEP_CLOSE);
    default:
        return make_usual(panel);
    }
}

/* A step that puts what follows from the last answer into the write log. */
static unsigned put(struct task *task, const struct work *work, uint8_t step)
{
    return make(task, step, work->to, work->times * task->answer + work->plus);
}

/* The part of a transaction that does something about a mark. */
static uint8_t mend(struct task *task, const struct work *work)
{
    unsigned code;

    switch (task->next) {
    case CROCKTENDRIL_STEP_IGNORE:
        code = make(task, CROCKTENDRIL_STEP_IGNORE, 0, 0);
        if (code == CROCKTENDRIL_CODE_MARKED_WRITTEN)
            return CROCKTENDRIL_STEP_RELOAD; /* it is repaired instead */
        return after(task, code, CROCKTENDRIL_STEP_FINISH);
    case CROCKTENDRIL_STEP_RELOAD:
        code = make(task, CROCKTENDRIL_STEP_RELOAD, 0, 0);
        return after(task, code, CROCKTENDRIL_STEP_REREAD);
    case CROCKTENDRIL_STEP_REREAD:
        code = make(task, CROCKTENDRIL_STEP_REREAD, work->from, 0);
        return after(task, code, CROCKTENDRIL_STEP_UPDATE);
    default:
        return after(task, put(task, work, CROCKTENDRIL_STEP_UPDATE), CROCKTENDRIL_STEP_FINISH);
    }
}

static uint8_t work_turn(struct task *task, const struct work *work)
{
    unsigned code;

    switch (task->next) {
    case CROCKTENDRIL_STEP_BEGIN:
        return after(task, make(task, CROCKTENDRIL_STEP_BEGIN, 0, 0), CROCKTENDRIL_STEP_READ);
    case CROCKTENDRIL_STEP_READ:
        code = make(task, CROCKTENDRIL_STEP_READ, work->from, 0);
        return after(task, code, CROCKTENDRIL_STEP_WRITE);
    case CROCKTENDRIL_STEP_WRITE:
        return after(task, put(task, work, CROCKTENDRIL_STEP_WRITE), CROCKTENDRIL_STEP_CLOSE);
    case CROCKTENDRIL_STEP_ENTER:
        code = make(task, CROCKTENDRIL_STEP_ENTER, 0, 0);
        /* It answers 0 if something that was read is out of date. */
        return after(task, code, task->answer ? CROCKTENDRIL_STEP_FINISH : work->if_marked);
    case CROCKTENDRIL_STEP_IGNORE:
    case CROCKTENDRIL_STEP_RELOAD:
    case CROCKTENDRIL_STEP_REREAD:
    case CROCKTENDRIL_STEP_UPDATE:
        return mend(task, work);
    default:
        return make_usual(task);
    }
}

/* The next cell that the monitor has not seen yet. */
static uint8_t look(struct task *monitor)
{
    unsigned code = make(monitor, CROCKTENDRIL_STEP_READ, seen_cells, 0);

    if (code == CROCKTENDRIL_CODE_DONE)
        seen[seen_cells++] = monitor->answer;
    return after(monitor, code,
                 seen_cells < LOOKED_AT ? CROCKTENDRIL_STEP_READ : CROCKTENDRIL_STEP_CLOSE);
}

/* The monitor reads two cells in one transaction that writes nothing, so that
   they are of one moment. */
static uint8_t monitor_turn(struct task *monitor)
{
    unsigned code;

    switch (monitor->next) {
    case CROCKTENDRIL_STEP_BEGIN:
        seen_cells = 0;
        code = make(monitor, CROCKTENDRIL_STEP_BEGIN, 0, 0);
        return after(monitor, code, CROCKTENDRIL_STEP_READ);
    case CROCKTENDRIL_STEP_READ:
        return look(monitor);
    case CROCKTENDRIL_STEP_CLOSE:
        code = make(monitor, CROCKTENDRIL_STEP_CLOSE, 0, 0);
        return after(monitor, code, CROCKTENDRIL_STEP_ENTER);
    case CROCKTENDRIL_STEP_FINISH:
        code = make(monitor, CROCKTENDRIL_STEP_FINISH, 0, 0);
        return after(monitor, code, AT_REST);
    default:
        return make_usual(monitor);
    }
}

static uint8_t turn(struct task *task)
{
    switch (task->slot) {
    case REGULATOR:
        return work_turn(task, &valve);
    case PANEL:
        return panel_turn(task);
    case MONITOR:
        return monitor_turn(task);
    case EAST:
        return work_turn(task, &east_fills);
    default:
        return work_turn(task, &west_fills);
    }
}

/* A turn for each task that has come and is not at rest. Answers how many
   tasks are not at rest after it. */
static int play(struct task *tasks, int count, unsigned round)
{
    int busy = 0, place;

    for (place = 0; place < count; place++) {
        if (tasks[place].next != AT_REST && tasks[place].comes <= round)
            tasks[place].next = turn(&tasks[place]);
        busy += tasks[place].next != AT_REST;
    }
    return busy;
}

/* True if all of them come to rest. */
static int play_all(struct task *tasks, int count)
{
    unsigned round = 1;

    while (play(tasks, count, round) > 0)
        if (++round > ROUNDS)
            return 0;
    return 1;
}

static int the_valve_follows(void)
{
    struct task tasks[] = {{REGULATOR, 1, CROCKTENDRIL_STEP_BEGIN, 0, 0},
                           {PANEL, 1, CROCKTENDRIL_STEP_BEGIN, 0, 0},
                           {MONITOR, 7, CROCKTENDRIL_STEP_BEGIN, 0, 0}};
    int follows = play_all(tasks, 3) && seen[VALVE] == 2 * seen[SETPOINT];

    printf("the valve %s the setpoint\n", follows ? "follows" : "does not follow");
    return follows;
}

static int the_total_has_all(void)
{
    struct task lines[] = {{EAST, 1, CROCKTENDRIL_STEP_BEGIN, 0, 0},
                           {WEST, 1, CROCKTENDRIL_STEP_BEGIN, 0, 0}};
    struct task monitor = {MONITOR, 1, AT_REST, 0, 0};
    int has_all = play_all(lines, 2);

    make(&monitor, CROCKTENDRIL_STEP_BEGIN, 0, 0);
    make(&monitor, CROCKTENDRIL_STEP_READ, TOTAL, 0);
    has_all = has_all && monitor.answer == FIRST_TOTAL + east_fills.plus + west_fills.plus;
    make(&monitor, CROCKTENDRIL_STEP_GIVE_UP, 0, 0);
    printf("%s\n", has_all ? "both increments are in the total" : "an increment is lost");
    return has_all;
}

int main(void)
{
    /* The answer of a lay-out is compared as it stands. */
    if (crocktendril_lay_out(area, sizeof area, descriptions, sizeof descriptions) !=
        CROCKTENDRIL_LAY_OUT_DONE)
        return 1;
    return the_valve_follows() && the_total_has_all() ? 0 : 1;
}
