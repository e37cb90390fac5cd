/* A toy kernel around the lock table: three tasks, one lock, and the table's answer decides who runs.
   The journal task is slow and takes the lock first. Then the urgent draw task wants it and must wait. The label task is of middling
   urgency and needs no lock: without inheritance it would run ahead of journal, and so of draw. Here journal runs at draw's urgency.
   Each accepted event goes to a log, and when a task ends it is shown how often it took the lock. In the end the log is read back, as on
   a bench to which the terminal has returned. `bench/run --example` builds and runs it. */
#include <stdio.h>
#include <string.h>
#include "locktable.h"

enum { PRINTER = 0 }; /* the lock is resource 0 */
enum { DRAW, LABEL, JOURNAL, TASKS };
enum action { WORK, TAKE, GIVE, END };

struct task {
    const char *name;
    uint8_t priority;
    unsigned arrives; /* the turn of the kernel's loop at which it is created */
    enum action script[6];
    unsigned next;
};

/* The place in this list is the task's id in the table. */
static struct task tasks[TASKS] = {
    [DRAW] = { "draw", 30, 2, { TAKE, WORK, GIVE, END }, 0 },
    [LABEL] = { "label", 20, 3, { WORK, END }, 0 },
    [JOURNAL] = { "journal", 10, 0, { TAKE, WORK, WORK, GIVE, WORK, END }, 0 },
};

/* The kernel's only table, and who runs by the table's last answer. */
static struct locktable table;
static uint8_t running = LOCKTABLE_NOBODY;

/* The log of its events, with room for more of them than the scripts have. */
enum { MOST_EVENTS = 100 };
static uint8_t event_log[LOCKTABLE_BLOCK * LOCKTABLE_LOG_BLOCKS(MOST_EVENTS)];

static const char *name(uint8_t id) { return id < TASKS ? tasks[id].name : "nobody"; }

/* The table has taken the event, so its clock has gone on by one since the records that the log has so far. */
static int keep(struct locktable_record e)
{
    uint8_t number = locktable_log(event_log, sizeof event_log, table.clock - 1u, e);
    if (number != LOCKTABLE_ACCEPTED)
        printf("the log refuses event %u with %u\n", table.clock, number);
    return number == LOCKTABLE_ACCEPTED;
}

/* Every event goes through here: the answer's running thread is the one that gets the processor. */
static int event(uint8_t kind, uint8_t id, uint8_t argument, const char *words)
{
    struct locktable_record e = { kind, id, argument, 0 };
    struct locktable_answer a = locktable_step(&table, e);
    running = a.running;
    printf("%-8s %-22s", name(id), words);
    if (a.number != LOCKTABLE_ACCEPTED)
        printf(" refused with %u;", a.number);
    printf(" -> %s runs", name(running));
    if (running != LOCKTABLE_NOBODY)
        printf(" at priority %u", locktable_thread(&table, running).current_priority);
    printf("\n");
    return a.number == LOCKTABLE_ACCEPTED && keep(e);
}

static int arrivals(unsigned turn)
{
    int well = 1;
    for (uint8_t id = 0; id < TASKS; id++)
        if (tasks[id].arrives == turn)
            well &= event(LOCKTABLE_CREATE, id, tasks[id].priority, "arrives");
    return well;
}

static int take_lock(uint8_t id)
{
    struct locktable_resource_answer lock = locktable_resource(&table, PRINTER);
    char words[32] = "takes the lock";
    if (lock.number == LOCKTABLE_ACCEPTED && lock.holder != LOCKTABLE_NOBODY)
        snprintf(words, sizeof words, "waits for %s", name(lock.holder));
    return event(LOCKTABLE_P, id, PRINTER, words);
}

/* What service staff want to know of a task is asked before its Exit, which clears it. */
static int end_task(uint8_t id)
{
    struct locktable_thread_answer task = locktable_thread(&table, id);
    printf("%-8s requests: %u, releases: %u\n", name(id), task.requests, task.releases);
    return event(LOCKTABLE_EXIT, id, 0, "ends");
}

/* The task that the table named does the next thing in its script. */
static int do_next(uint8_t id)
{
    switch (tasks[id].script[tasks[id].next++]) {
    case TAKE: return take_lock(id);
    case GIVE: return event(LOCKTABLE_V, id, PRINTER, "gives the lock back");
    case END: return end_task(id);
    default: return printf("%-8s works\n", name(id)) > 0;
    }
}

/* From the empty table on the log leads to the table that the kernel has. Only the blocks in use are lent, not the whole buffer. */
static int read_back(void)
{
    int blocks = LOCKTABLE_LOG_BLOCKS(table.clock);
    struct locktable_replayed r = locktable_replay(event_log, (size_t)blocks * LOCKTABLE_BLOCK);
    int same = r.number == LOCKTABLE_ACCEPTED && memcmp(&r.table, &table, sizeof table) == 0;
    printf("the log has %d block%s; read back, its %u records lead to %s table\n", blocks, blocks == 1 ? "" : "s", r.records,
           same ? "the same" : "another");
    return same;
}

int main(void)
{
    int well = 1, draw_ended = 0, label_ahead = 0;
    locktable_empty(&table);
    for (unsigned turn = 0; well && (turn < 4 || running != LOCKTABLE_NOBODY); turn++) {
        well = arrivals(turn);
        uint8_t id = running;
        if (!well || id == LOCKTABLE_NOBODY)
            continue;
        label_ahead |= id == LABEL && !draw_ended;
        well = do_next(id);
        draw_ended |= id == DRAW && locktable_thread(&table, DRAW).number == LOCKTABLE_NOT_LIVE;
    }
    printf(label_ahead ? "label ran ahead of draw\n" : "label never ran ahead of draw\n");
    well &= read_back();
    return well && !label_ahead && fflush(stdout) == 0 ? 0 : 1;
}
