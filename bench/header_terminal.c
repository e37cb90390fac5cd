/* include/terminal.h before any other header, and twice; then each of its calls, as C and as C++. bench/run compiles and runs this file in
   the same ways as header.c (bench/header): it ends with 0 if every answer is right. */
#include "terminal.h"
#include "locktable.h"
#include "terminal.h"

#if TERMINAL_VERSION != 1 || LOCKTABLE_VERSION != 5
#error "these answers are those of version 1, on a table of version 5"
#endif

/* Through pointers, as in header.c. */
static struct locktable_answer (LOCKTABLE_ABI *volatile start)(struct locktable *) = terminal_start;
static struct locktable_answer (LOCKTABLE_ABI *volatile spare)(struct locktable *, uint8_t) = terminal_spare;
static struct locktable_answer (LOCKTABLE_ABI *volatile spare_at)(struct locktable *, uint8_t, uint8_t) = terminal_spare_at;

static const uint8_t priorities[] = TERMINAL_PRIORITIES;

static int is(struct locktable_answer a, int number, int running, int count)
{
    return a.number == number && a.running == running && a.count == count;
}

static int has(const struct locktable *t, uint8_t id, int priority, int time)
{
    struct locktable_thread_answer a = locktable_thread(t, id);
    return a.number == LOCKTABLE_ACCEPTED && a.priority == priority && a.time == time;
}

static int start_right(struct locktable *t)
{
    int right = sizeof priorities == TERMINAL_TASKS && priorities[TERMINAL_DRAW] == 250 && priorities[TERMINAL_TASKS - 1] == 10
        && is(terminal_start(t), LOCKTABLE_ACCEPTED, TERMINAL_DRAW, 1) && is(start(t), LOCKTABLE_ACCEPTED, TERMINAL_DRAW, 1);
    for (uint8_t id = 0; id < TERMINAL_TASKS; id++)
        right = right && has(t, id, priorities[id], id);
    return right && LOCKTABLE_EVENTS_LEFT(t) == LOCKTABLE_EVENTS - TERMINAL_TASKS;
}

static int spares_right(struct locktable *t)
{
    return is(terminal_spare(t, TERMINAL_FIRST_SPARE), LOCKTABLE_ACCEPTED, TERMINAL_DRAW, 1)
        && has(t, TERMINAL_FIRST_SPARE, TERMINAL_SPARE_PRIORITY, 16)
        && is(terminal_spare_at(t, 17, 203), LOCKTABLE_ACCEPTED, TERMINAL_DRAW, 1) && has(t, 17, 203, 17)
        && is(spare_at(t, TERMINAL_LAST_SPARE, 255), LOCKTABLE_ACCEPTED, TERMINAL_LAST_SPARE, 1) && has(t, TERMINAL_LAST_SPARE, 255, 18)
        && is(spare(t, 17), LOCKTABLE_ALREADY_LIVE, TERMINAL_LAST_SPARE, 0)
        && is(spare(t, TERMINAL_FIRST_SPARE - 1), TERMINAL_NOT_SPARE, TERMINAL_LAST_SPARE, 0)
        && is(spare_at(t, TERMINAL_LAST_SPARE + 1, 9), TERMINAL_NOT_SPARE, TERMINAL_LAST_SPARE, 0);
}

/* Called by the convention of the machine, as in header.c. */
LOCKTABLE_ABI int main(void)
{
    struct locktable t;
    return start_right(&t) && spares_right(&t) ? 0 : 1;
}
