/* include/locktable.h before any other header, and twice; then each call, as C and as C++. bench/run compiles this file in many ways
   (bench/header) and runs it: it ends with 0 if every answer is right. */
#include "locktable.h"
#include "locktable.h"

#if LOCKTABLE_VERSION != 5
#error "these answers are those of version 5"
#endif

/* Through pointers, so that no compiler takes its own convention for the call: their types have LOCKTABLE_ABI, as the header says. */
static void (LOCKTABLE_ABI *volatile empty)(struct locktable *) = locktable_empty;
static struct locktable_answer (LOCKTABLE_ABI *volatile step)(struct locktable *, struct locktable_record) = locktable_step;
static uint8_t (LOCKTABLE_ABI *volatile keep)(uint8_t *, size_t, uint32_t, struct locktable_record) = locktable_log;
static struct locktable_replayed (LOCKTABLE_ABI *volatile replay)(const uint8_t *, size_t) = locktable_replay;

static int steps_right(struct locktable *t)
{
    struct locktable_record create = { LOCKTABLE_CREATE, 3, 200, 0 }, request = { LOCKTABLE_P, 3, 5, 0 };
    struct locktable_record another = { LOCKTABLE_P, 3, 6, 0 }, release = { LOCKTABLE_V, 3, 6, 0 };
    struct locktable_answer a, b, c;
    empty(t);
    a = locktable_step(t, create);
    b = step(t, request);
    c = step(t, create);
    return a.number == LOCKTABLE_ACCEPTED && a.running == 3 && a.count == 1
        && b.number == LOCKTABLE_ACCEPTED && b.running == 3 && b.count == 0
        && c.number == LOCKTABLE_ALREADY_LIVE && c.running == 3 && c.count == 0
        && step(t, another).number == LOCKTABLE_ACCEPTED && step(t, release).number == LOCKTABLE_ACCEPTED
        && LOCKTABLE_EVENTS_LEFT(t) == LOCKTABLE_EVENTS - 4;
}

static int queries_right(const struct locktable *t)
{
    struct locktable_running_answer a = locktable_running(t);
    struct locktable_thread_answer b = locktable_thread(t, 3);
    struct locktable_resource_answer c = locktable_resource(t, 5);
    return a.number == LOCKTABLE_ACCEPTED && a.running == 3
        && b.number == LOCKTABLE_ACCEPTED && b.priority == 200 && b.time == 0
        && b.current_priority == 200 && b.current_time == 0 && b.waits_for == LOCKTABLE_NOTHING
        && b.requests == 2 && b.releases == 1
        && c.number == LOCKTABLE_ACCEPTED && c.holder == 3 && c.waiters == 0
        && locktable_thread(t, LOCKTABLE_NOBODY).number == LOCKTABLE_NO_SUCH_THREAD
        && locktable_resource(t, LOCKTABLE_NOTHING).number == LOCKTABLE_MALFORMED;
}

/* Two records, and the check worked out by hand: 5 * 2 for the count, 9 * 1 + 10 * 3 + 11 * 200 for the one, 13 * 4 + 14 * 3 + 15 * 5 for
   the other. */
static int log_right(uint8_t *log, size_t size)
{
    struct locktable_record create = { LOCKTABLE_CREATE, 3, 200, 0 }, request = { LOCKTABLE_P, 3, 5, 0 };
    uint8_t a = locktable_log(log, size, 0, create), b = keep(log, size, 1, request);
    return a == LOCKTABLE_ACCEPTED && b == LOCKTABLE_ACCEPTED
        && log[0] == 0 && log[4] == 2 && log[8] == LOCKTABLE_CREATE && log[9] == 3 && log[10] == 200 && log[12] == LOCKTABLE_P
        && log[508] == 2418 % 256 && log[509] == 2418 / 256 && log[510] == 0
        && keep(log, size, LOCKTABLE_EVENTS, create) == LOCKTABLE_CLOCK_RUN_OUT
        && keep(log, size, LOCKTABLE_BLOCK_RECORDS, create) == LOCKTABLE_LOG_TOO_SHORT
        && keep(log, size, 1, create) == LOCKTABLE_LOG_NOT_AS_SAID;
}

/* The log of these two records, as log_right has left it, and then with a check that doesn't agree. */
static int replay_right(uint8_t *log, size_t size)
{
    struct locktable_replayed a = locktable_replay(log, size), b = replay(log, size - 1), c = replay(log, 0), d;
    log[508]++;
    d = replay(log, size);
    return a.number == LOCKTABLE_ACCEPTED && a.records == 2 && a.table.clock == 2
        && locktable_running(&a.table).running == 3 && locktable_resource(&a.table, 5).holder == 3
        && b.number == LOCKTABLE_LOG_LENGTH && b.records == 0
        && c.number == LOCKTABLE_ACCEPTED && c.records == 0 && locktable_running(&c.table).running == LOCKTABLE_NOBODY
        && d.number == LOCKTABLE_LOG_NOT_AS_SAID && d.records == 0;
}

/* Whatever the convention that this file is compiled for, main is called by that of the machine it runs on. */
LOCKTABLE_ABI int main(void)
{
    struct locktable t;
    uint8_t log[LOCKTABLE_BLOCK * LOCKTABLE_LOG_BLOCKS(2)];
    return steps_right(&t) && queries_right(&t) && log_right(log, sizeof log) && replay_right(log, sizeof log) ? 0 : 1;
}
