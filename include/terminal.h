/* The terminal's own tasks: a layer above the lock table of locktable.h.
 *
 * The terminal has sixteen fixed tasks, ids 0 to 15, each with a priority of its own, and every shipment
 * starts with them. The other ids, 16 to 31, are for spare tasks, which may be added with a priority or
 * without one. Begin a shipment with terminal_start, which takes the place of locktable_empty. Then add
 * spare tasks by terminal_spare or terminal_spare_at, if there are any. All else goes by the calls of
 * locktable.h, on the same `struct locktable`. examples/terminal.c is a shipment.
 *
 * The layer sees nothing of the table but what its calls state: it makes Creates, by the same step, and is
 * proved from what that step promises.
 *
 * For C11 or C++11 and later, on x86-64; these calls are in liblocktable.a too (README.md, "From C").
 *
 * WHAT A CALL NEEDS OF ITS CALLER
 *   - All that locktable.h says under this heading, but for the figure of the stack.
 *   - The table writable, in each of the three calls, whatever it holds. A spare task that is refused stores
 *     all the bytes back, as they were.
 *   - Up to 5 KiB of stack (measured; bench/FIGURES.md), the red zone with it.
 *
 * WHAT IT PROMISES
 *   - Each call comes to an end, doesn't allocate, doesn't wait and doesn't keep the pointer, and the lent
 *     table is the only state, as locktable.h says of its own.
 *   - terminal_start takes fewer than 50,000 instructions, since it makes sixteen steps: it is for the start
 *     of a shipment. A spare task takes fewer than 3,000 on the table that terminal_start leaves, and about
 *     what a step takes on any other. These are measured, not proved (bench/FIGURES.md).
 *   - What the calls do and answer, as this file says it, is proved for every table and every argument:
 *     in crates/terminal what each function leaves, and in src/tasks.rt of crates/locktable_c and
 *     crates/locktable that a call does to the table that it is lent what that function does. In
 *     crates/shipment is proved, of a terminal_start and any calls after it on the same table: that the
 *     demands of README.md hold with these calls too (specs/Fixed.antt, specs/Ships.antt), that the
 *     fixed tasks start in their order (specs/Order.antt), and what is said below of the draw task
 *     (specs/Draw.antt).
 *   - Not proved are what a call needs, its time, which memory it touches, and that there is no other state.
 *     bench/run tries them. */
#ifndef TERMINAL_H
#define TERMINAL_H

#include "locktable.h"

/* Raised by one whenever something changes in this file that a program could notice. What changes in
 * locktable.h is counted there. */
#define TERMINAL_VERSION 1

#ifdef __cplusplus
extern "C" {
#endif

/* THE TASKS
 *
 * A task is a thread of the table, and goes by the thread's id. */
#define TERMINAL_TASKS 16         /* fixed tasks are 0 to 15 */
#define TERMINAL_DRAW 0           /* the most urgent of them */
#define TERMINAL_FIRST_SPARE 16   /* spare tasks are 16 to 31 */
#define TERMINAL_LAST_SPARE 31
#define TERMINAL_SPARE_PRIORITY 0 /* what a spare task gets that is added without a priority */

/* The priorities of the fixed tasks, by id, for an array of TERMINAL_TASKS. */
#define TERMINAL_PRIORITIES { 250, 200, 190, 180, 170, 160, 150, 140, 120, 110, 100, 90, 60, 30, 20, 10 }

/* After terminal_start, and before any later event, each fixed task's precedence is above that of all fixed
 * tasks after it.
 *
 * A task that sleeps ends, and is created anew when it wakes (locktable.h, EVENTS). A fixed task comes back
 * by locktable_step, at its own priority:
 *
 *     static const uint8_t priorities[TERMINAL_TASKS] = TERMINAL_PRIORITIES;
 *
 *     struct locktable_record e = { LOCKTABLE_CREATE, id, priorities[id], 0 };
 *     struct locktable_answer a = locktable_step(&table, e);
 *
 * A spare task comes back by terminal_spare or terminal_spare_at: its id is free after its Exit, for the same
 * task or for another. */

/* THE DRAW TASK
 *
 * What is proved of the draw, task 0. Take a moment of a shipment that terminal_start began, at which the
 * draw is live at priority 250, and every other live task's own priority is below 250. From then on, as long
 * as nobody sets or ends task 0, and nobody is created or set above 250: whenever another than the draw runs,
 * that one was live at that moment, has held or waited for a resource ever since, and runs at the draw's
 * precedence. So nobody who came later runs ahead of the draw, and no task that held nothing and waited for
 * nothing. If n others held or waited at that moment, and each of them makes at most K calls until it does
 * neither, all others together make at most n times K.
 *
 * The start itself is such a moment, and nobody holds anything there. So from then on, as long as nobody is
 * created or set above 250, the draw itself runs until it is set or ended. */

/* REFUSALS
 *
 * Beside those of locktable.h, in the number of an answer. */
enum terminal_number {
    TERMINAL_NOT_SPARE = 17 /* a spare task with an id that isn't 16 to 31 */
};

/* CALLS
 *
 * A shipment starts: whatever the table held, afterwards it is what the Creates of tasks 0 to 15, in order
 * and with their priorities, make of the empty table. The clock is 16, so that 65,519 events are left, nobody
 * holds anything, and the draw runs. The call is never refused. The answer is that of the last Create:
 * LOCKTABLE_ACCEPTED, with TERMINAL_DRAW running and the count 1. */
LOCKTABLE_ABI struct locktable_answer terminal_start(struct locktable *t);

/* A spare task is added, without a priority or with one. Accepted: the table is changed and the answer given
 * as by locktable_step with the record { LOCKTABLE_CREATE, id, priority, 0 }, where the priority is
 * TERMINAL_SPARE_PRIORITY if none is said.
 *
 * Refused, with the first of these that applies, which is not always the lowest:
 *   - LOCKTABLE_NOT_SOUND: the table isn't sound.
 *   - TERMINAL_NOT_SPARE: the id is not 16 to 31.
 *   - LOCKTABLE_CLOCK_RUN_OUT: the table has accepted all its events.
 *   - LOCKTABLE_ALREADY_LIVE: the task is live.
 * The table is as it was then, the count is 0, and the running thread is that table's, except that
 * LOCKTABLE_NOT_SOUND reports LOCKTABLE_NOBODY. */
LOCKTABLE_ABI struct locktable_answer terminal_spare(struct locktable *t, uint8_t id);
LOCKTABLE_ABI struct locktable_answer terminal_spare_at(struct locktable *t, uint8_t id, uint8_t priority);

/* THE LOG
 *
 * These calls write no log. A kernel that keeps one (locktable_log) begins it with the Creates of the fixed
 * tasks, which are the first sixteen events of the shipment:
 *
 *     terminal_start(&table);
 *     for (uint8_t id = 0; id < TERMINAL_TASKS; id++) {
 *         struct locktable_record e = { LOCKTABLE_CREATE, id, priorities[id], 0 };
 *         logged = locktable_log(card, sizeof card, id, e);
 *     }
 *
 * A spare task that is accepted is one event more. Its record has the priority that it got, which is
 * TERMINAL_SPARE_PRIORITY after terminal_spare:
 *
 *     struct locktable_record e = { LOCKTABLE_CREATE, id, priority, 0 };
 *     if (terminal_spare_at(&table, id, priority).number == LOCKTABLE_ACCEPTED)
 *         logged = locktable_log(card, sizeof card, table.clock - 1u, e);
 *
 * So the log has all that the table has accepted since it was empty, as if locktable_empty and
 * locktable_step alone had been called. A log belongs to one shipment, from one terminal_start to the
 * next. */

#ifdef __cplusplus
}
#endif

#endif
