/* A shipment of the terminal: sixteen fixed tasks, two spare ones, and two locks, the register and the line.
   The tasks that have nothing to do end, until journal runs, which is slow and takes the register. Then label comes, which is of middling
   urgency and needs no lock, and draw, the most urgent of all. Draw wants the register and must wait. Without inheritance label would run
   ahead of journal now, and so of draw. Here journal runs at draw's urgency until it gives the register back, and then draw has it.
   Later draw wants the line. Network has that, and waits for the register, which journal has again; so does label. By itself label
   is more urgent than network, but network carries draw's urgency. So it is network that gets the register when journal gives it
   back, and runs; it gives the line back, and draw has that.
   `bench/run --example` builds and runs it. */
#include <stdio.h>
#include "terminal.h"

enum { REGISTER, LINE, LOCKS }; /* resources 0 and 1 */
enum { DRAW = TERMINAL_DRAW, LABEL = 10, NETWORK = 12, JOURNAL = 13, SELFTEST = 15, PRESS = 16, CRADLE = 17, TASKS };
static const char *const locks[LOCKS] = { "register", "line" };

/* The place in these lists is the task's id in the table. Press and cradle are spare tasks. */
static const char *const names[TASKS] = {
    "draw", "alarm", "gate", "belt", "divider", "dryer", "sieve", "moisture", "bottle", "seal", "label", "display", "network", "journal",
    "archive", "selftest", "press", "cradle",
};
static const uint8_t priorities[TERMINAL_TASKS] = TERMINAL_PRIORITIES;

/* The terminal's only table, and who runs by the table's last answer. */
static struct locktable table;
static uint8_t running = LOCKTABLE_NOBODY;

/* Whether draw has come and hasn't got the lock yet that it wants, and whether label ran in that time. */
static int draw_wants, label_ahead;

static const char *name(uint8_t id) { return id < TASKS ? names[id] : "nobody"; }

/* Every answer comes here: its running thread is the task that gets the processor. */
static int hear(const char *who, const char *words, struct locktable_answer a)
{
    running = a.running;
    label_ahead |= draw_wants && running == LABEL;
    printf("%-8s %-26s", who, words);
    if (a.number != LOCKTABLE_ACCEPTED)
        printf(" refused with %u;", a.number);
    printf(" -> %s runs", name(running));
    if (running != LOCKTABLE_NOBODY)
        printf(" at priority %u", locktable_thread(&table, running).current_priority);
    printf("\n");
    return a.number == LOCKTABLE_ACCEPTED;
}

static int event(uint8_t kind, uint8_t id, uint8_t argument, const char *words)
{
    struct locktable_record e = { kind, id, argument, 0 };
    return hear(name(id), words, locktable_step(&table, e));
}

/* A fixed task that has ended comes back at its own priority. */
static int comes(uint8_t id) { return event(LOCKTABLE_CREATE, id, priorities[id], "comes"); }

/* The task holds the lock, and runs. */
static int has(uint8_t id, uint8_t lock)
{
    struct locktable_resource_answer a = locktable_resource(&table, lock);
    printf("%-8s has the %s\n", name(a.holder), locks[lock]);
    return a.number == LOCKTABLE_ACCEPTED && a.holder == id && running == id;
}

/* Two come, and a third is refused: its id is a fixed task's. */
static int spare_tasks(void)
{
    int well = hear(name(PRESS), "comes without a priority", terminal_spare(&table, PRESS));
    well &= hear(name(CRADLE), "comes with priority 80", terminal_spare_at(&table, CRADLE, 80));
    struct locktable_answer a = terminal_spare(&table, SELFTEST);
    hear(name(SELFTEST), "as a spare task:", a);
    return well && a.number == TERMINAL_NOT_SPARE;
}

/* Whoever runs ends, until it is journal's turn. */
static int others_end(void)
{
    int well = 1;
    while (well && running != JOURNAL)
        well = event(LOCKTABLE_EXIT, running, 0, "has nothing to do, ends");
    return well;
}

/* While draw waits, be it for another lock: journal runs at its urgency, and label doesn't. */
static int journal_works(void)
{
    printf("%-8s works\n", name(running));
    return running == JOURNAL && locktable_thread(&table, JOURNAL).current_priority == priorities[DRAW];
}

static int draw_gets_register(void)
{
    draw_wants = 1;
    int well = comes(DRAW) && event(LOCKTABLE_P, DRAW, REGISTER, "waits for the register") && journal_works()
        && event(LOCKTABLE_V, JOURNAL, REGISTER, "gives the register back") && has(DRAW, REGISTER);
    draw_wants = 0;
    return well;
}

/* Label comes later than network and is more urgent by itself, but it has nothing that draw will want. */
static int two_wait(void)
{
    return event(LOCKTABLE_P, JOURNAL, REGISTER, "takes the register")
        && comes(NETWORK) && event(LOCKTABLE_P, NETWORK, LINE, "takes the line")
        && event(LOCKTABLE_P, NETWORK, REGISTER, "waits for the register")
        && comes(LABEL) && event(LOCKTABLE_P, LABEL, REGISTER, "waits for the register");
}

static int draw_gets_line(void)
{
    draw_wants = 1;
    int well = comes(DRAW) && event(LOCKTABLE_P, DRAW, LINE, "waits for the line") && journal_works()
        && event(LOCKTABLE_V, JOURNAL, REGISTER, "gives the register back") && has(NETWORK, REGISTER)
        && event(LOCKTABLE_V, NETWORK, LINE, "gives the line back") && has(DRAW, LINE);
    draw_wants = 0;
    return well;
}

static int shipment(void)
{
    return hear("terminal", "starts the shipment", terminal_start(&table)) && spare_tasks() && others_end()
        && event(LOCKTABLE_P, JOURNAL, REGISTER, "takes the register") && comes(LABEL) && draw_gets_register()
        && event(LOCKTABLE_V, DRAW, REGISTER, "gives the register back") && event(LOCKTABLE_EXIT, DRAW, 0, "ends")
        && event(LOCKTABLE_EXIT, LABEL, 0, "ends") && two_wait() && draw_gets_line()
        && event(LOCKTABLE_V, DRAW, LINE, "gives the line back") && event(LOCKTABLE_EXIT, DRAW, 0, "ends");
}

int main(void)
{
    int well = shipment() && !label_ahead;
    printf(well ? "draw got the register, and later the line; label never ran ahead of it\n"
           : label_ahead ? "label ran ahead of draw\n" : "somebody did not get a lock\n");
    return well && fflush(stdout) == 0 ? 0 : 1;
}
