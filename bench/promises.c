/* What include/locktable.h and include/terminal.h say of the calls, beyond their answers, and can be tried by running them: which memory they
   write, how a table comes to its end, what the totals tell, how a kernel keeps its log and reads it back, how a shipment starts and goes on,
   and that tables and logs are independent. What they say of the machine code is tried by bench/header. */
#define _DEFAULT_SOURCE /* for mmap and setitimer beside C11 */
#include <pthread.h>
#include <signal.h>
#include <stdbool.h>
#include <stdio.h>
#include <stdlib.h>
#include <string.h>
#include <sys/mman.h>
#include <sys/time.h>
#include <sys/wait.h>
#include <time.h>
#include <unistd.h>
#include "draw.h"

enum { HISTORIES = 300, TURNS = 5000, INTERRUPTS = 300, PATIENCE = 60 };

/* In a block of the log. */
enum { COUNT_AT = 4, RECORDS_AT = 8, RECORD = sizeof(struct locktable_record) };

static const uint8_t priorities[TERMINAL_TASKS] = TERMINAL_PRIORITIES;

static void expect(bool holds, const char *sentence)
{
    if (holds)
        return;
    fprintf(stderr, "FAILED: promises: it does not hold that %s\n", sentence);
    exit(1);
}

static uint8_t number_of(struct locktable *t, unsigned kind, unsigned thread, unsigned argument)
{
    return locktable_step(t, (struct locktable_record){ (uint8_t)kind, (uint8_t)thread, (uint8_t)argument, 0 }).number;
}

static size_t page_size(void) { return (size_t)sysconf(_SC_PAGESIZE); }

/* Pages that are all zero and may be written. */
static uint8_t *new_pages(size_t pages)
{
    uint8_t *at = mmap(0, pages * page_size(), PROT_READ | PROT_WRITE, MAP_PRIVATE | MAP_ANONYMOUS, -1, 0);
    expect(at != MAP_FAILED, "pages can be had");
    return at;
}

static void protect(uint8_t *page, int allowed) { expect(mprotect(page, page_size(), allowed) == 0, "pages can be protected"); }

/* A copy of the bytes on a page that may only be read, or written too. It ends where the page does, and what follows may not be touched. */
static uint8_t *copy_on_page(const void *bytes, size_t n, int allowed)
{
    uint8_t *page = new_pages(2);
    memcpy(page + page_size() - n, bytes, n);
    protect(page, allowed);
    protect(page + page_size(), PROT_NONE);
    return page + page_size() - n;
}

static struct locktable *on_page(const struct locktable *table, int allowed)
{
    return (struct locktable *)(void *)copy_on_page(table, sizeof *table, allowed);
}

static void end_with(int signal) { _exit(signal); }

/* Where no fault is looked for. */
static void on_fault(int signal)
{
    (void)signal;
    expect(false, "a query, a refused call of the log and one that reads it back write nothing there, and no call touches a byte beyond it");
}

/* A process of its own, in which a fault is a signal to end with. */
static pid_t new_child(void)
{
    pid_t child = fork();
    expect(child >= 0, "a child can be started");
    if (child == 0)
        signal(SIGSEGV, end_with);
    return child;
}

/* The signal that ended it; 0 if it went through. */
static int signal_of_child(pid_t child)
{
    int status = 0;
    expect(waitpid(child, &status, 0) == child && WIFEXITED(status), "a child ends");
    return WEXITSTATUS(status);
}

/* A call that writes the table, and the number it answers. Each takes of the record what it needs; `empty` has no answer. */
typedef uint8_t call(struct locktable *t, struct locktable_record e);

static uint8_t step(struct locktable *t, struct locktable_record e) { return locktable_step(t, e).number; }

static uint8_t empty(struct locktable *t, struct locktable_record e)
{
    (void)e;
    locktable_empty(t);
    return LOCKTABLE_ACCEPTED;
}

static uint8_t start(struct locktable *t, struct locktable_record e)
{
    (void)e;
    return terminal_start(t).number;
}

static uint8_t spare(struct locktable *t, struct locktable_record e) { return terminal_spare(t, e.thread).number; }

static uint8_t spare_at(struct locktable *t, struct locktable_record e) { return terminal_spare_at(t, e.thread, e.argument).number; }

/* The signal that ends this call; 0 if it goes through. */
static int signal_of(call *does, struct locktable *t, struct locktable_record e)
{
    pid_t child = new_child();
    if (child == 0) {
        does(t, e);
        _exit(0);
    }
    return signal_of_child(child);
}

/* Thread 0 holds resource 0. Thread 1 runs and holds resource 1. */
static struct locktable two_holders(void)
{
    struct locktable t;
    locktable_empty(&t);
    bool made = number_of(&t, LOCKTABLE_CREATE, 0, 10) == 0 && number_of(&t, LOCKTABLE_P, 0, 0) == 0
        && number_of(&t, LOCKTABLE_CREATE, 1, 20) == 0 && number_of(&t, LOCKTABLE_P, 1, 1) == 0;
    expect(made, "two threads can be created and take a resource each");
    return t;
}

/* The call is refused with this number, changes nothing, and needs to write all the same. */
static void refused_and_stored(call *does, const struct locktable *table, struct locktable_record e, uint8_t number)
{
    struct locktable *t = on_page(table, PROT_READ | PROT_WRITE);
    expect(does(t, e) == number, "each refusal has its number");
    expect(memcmp(t, table, sizeof *t) == 0, "a refused step or spare task changes no byte");
    expect(signal_of(does, t, e) == 0, "a refused step or spare task goes through on a page that may be written");
    expect(signal_of(does, on_page(table, PROT_READ), e) == SIGSEGV, "a refused step or spare task stores the table back");
}

static void refused_steps_store(void)
{
    static const struct { struct locktable_record record; uint8_t number; } refusals[] = {
        { { 0, 1, 0, 0 }, LOCKTABLE_NO_SUCH_KIND },
        { { LOCKTABLE_SET, 32, 0, 0 }, LOCKTABLE_NO_SUCH_THREAD },
        { { LOCKTABLE_P, 1, 16, 0 }, LOCKTABLE_MALFORMED },
        { { LOCKTABLE_CREATE, 1, 0, 0 }, LOCKTABLE_ALREADY_LIVE },
        { { LOCKTABLE_V, 2, 0, 0 }, LOCKTABLE_NOT_LIVE },
        { { LOCKTABLE_V, 0, 0, 0 }, LOCKTABLE_NOT_RUNNING },
        { { LOCKTABLE_P, 1, 1, 0 }, LOCKTABLE_CIRCLE },
        { { LOCKTABLE_V, 1, 0, 0 }, LOCKTABLE_NOT_HOLDER },
        { { LOCKTABLE_EXIT, 1, 0, 0 }, LOCKTABLE_STILL_HOLDS },
    };
    struct locktable_record release = { LOCKTABLE_V, 1, 1, 0 };
    struct locktable table = two_holders(), last = table, unsound = table;
    for (size_t i = 0; i < sizeof refusals / sizeof *refusals; i++)
        refused_and_stored(step, &table, refusals[i].record, refusals[i].number);
    last.clock = LOCKTABLE_EVENTS;
    refused_and_stored(step, &last, release, LOCKTABLE_CLOCK_RUN_OUT);
    unsound.live[9] = 2;
    refused_and_stored(step, &unsound, release, LOCKTABLE_NOT_SOUND);
    expect(signal_of(step, on_page(&table, PROT_READ), release) == SIGSEGV, "an accepted step stores the table");
    expect(signal_of(empty, on_page(&table, PROT_READ), release) == SIGSEGV, "locktable_empty stores the table");
    printf("promises: a step writes the table, refused or not: with each of the numbers 1 to 11\n");
}

/* A spare task with this id, without a priority and with one. */
static void spare_refused(const struct locktable *table, uint8_t id, uint8_t number)
{
    struct locktable_record e = { LOCKTABLE_CREATE, id, 90, 0 };
    refused_and_stored(spare, table, e, number);
    refused_and_stored(spare_at, table, e, number);
}

/* Fixed tasks are live, and so is the first spare one. Where several numbers apply, the first of 1, 17, 5 and 6 is given. */
static void refused_spares_store(void)
{
    enum { BEFORE = TERMINAL_FIRST_SPARE - 1, LIVE = TERMINAL_FIRST_SPARE, DEAD = TERMINAL_LAST_SPARE, BEYOND = TERMINAL_LAST_SPARE + 1 };
    struct locktable table, last, unsound;
    struct locktable_record added = { LOCKTABLE_CREATE, DEAD, 90, 0 };
    terminal_start(&table);
    expect(terminal_spare(&table, LIVE).number == LOCKTABLE_ACCEPTED, "a spare task can be added");
    static const uint8_t others[] = { TERMINAL_DRAW, BEFORE, BEYOND, UINT8_MAX };
    last = unsound = table;
    last.clock = LOCKTABLE_EVENTS;
    unsound.clock = LOCKTABLE_EVENTS;
    unsound.live[9] = 2;
    for (size_t i = 0; i < sizeof others; i++) {
        spare_refused(&table, others[i], TERMINAL_NOT_SPARE);
        spare_refused(&last, others[i], TERMINAL_NOT_SPARE);
        spare_refused(&unsound, others[i], LOCKTABLE_NOT_SOUND);
    }
    spare_refused(&table, LIVE, LOCKTABLE_ALREADY_LIVE);
    spare_refused(&last, LIVE, LOCKTABLE_CLOCK_RUN_OUT);
    spare_refused(&last, DEAD, LOCKTABLE_CLOCK_RUN_OUT);
    spare_refused(&unsound, LIVE, LOCKTABLE_NOT_SOUND);
    expect(signal_of(spare, on_page(&table, PROT_READ), added) == SIGSEGV, "a spare task that is added without a priority stores the table");
    expect(signal_of(spare_at, on_page(&table, PROT_READ), added) == SIGSEGV, "one that is added with a priority stores the table");
    expect(signal_of(start, on_page(&table, PROT_READ), added) == SIGSEGV, "terminal_start stores the table");
    printf("promises: a spare task writes the table, refused or not: with each of the numbers 1, 17, 5 and 6\n");
}

static void queries_only_read(void)
{
    struct locktable table = two_holders(), unsound = table;
    const struct locktable *t = on_page(&table, PROT_READ);
    bool answered = locktable_running(t).running == 1 && locktable_thread(t, 0).current_priority == 10 && locktable_thread(t, 1).requests == 1
        && locktable_thread(t, 2).number == LOCKTABLE_NOT_LIVE && locktable_thread(t, 32).number == LOCKTABLE_NO_SUCH_THREAD
        && locktable_resource(t, 1).holder == 1 && locktable_resource(t, 16).number == LOCKTABLE_MALFORMED;
    unsound.live[9] = 2;
    t = on_page(&unsound, PROT_READ);
    answered &= locktable_running(t).number == LOCKTABLE_NOT_SOUND && locktable_thread(t, 0).number == LOCKTABLE_NOT_SOUND
        && locktable_resource(t, 0).number == LOCKTABLE_NOT_SOUND;
    expect(answered, "the queries answer on a page that may only be read");
    printf("promises: the queries answer on a page that may only be read\n");
}

static void clock_runs_out(void)
{
    struct locktable t;
    int accepted = 2;
    locktable_empty(&t);
    expect(LOCKTABLE_EVENTS_LEFT(&t) == LOCKTABLE_EVENTS, "an empty table has all events left");
    expect(number_of(&t, LOCKTABLE_CREATE, 0, 10) == 0 && number_of(&t, LOCKTABLE_P, 0, 0) == 0, "a thread can take a resource");
    for (; LOCKTABLE_EVENTS_LEFT(&t) > 0; accepted++) {
        expect(LOCKTABLE_EVENTS_LEFT(&t) == LOCKTABLE_EVENTS - accepted, "each accepted event leaves one less");
        expect(number_of(&t, LOCKTABLE_SET, 0, 10) == LOCKTABLE_ACCEPTED, "an event is accepted while any are left");
    }
    struct locktable end = t;
    bool refused = number_of(&t, LOCKTABLE_V, 0, 0) == LOCKTABLE_CLOCK_RUN_OUT && number_of(&t, LOCKTABLE_EXIT, 0, 0) == LOCKTABLE_CLOCK_RUN_OUT
        && number_of(&t, LOCKTABLE_CREATE, 1, 9) == LOCKTABLE_CLOCK_RUN_OUT && number_of(&t, LOCKTABLE_SET, 0, 9) == LOCKTABLE_CLOCK_RUN_OUT
        && number_of(&t, LOCKTABLE_P, 0, 1) == LOCKTABLE_CLOCK_RUN_OUT && number_of(&t, LOCKTABLE_V, 0, 16) == LOCKTABLE_MALFORMED;
    expect(refused && accepted == LOCKTABLE_EVENTS, "after the last event V and Exit are refused");
    expect(memcmp(&t, &end, sizeof t) == 0 && locktable_resource(&t, 0).holder == 0, "whoever then holds a resource keeps it");
    t.live[0] = 2;
    expect(number_of(&t, LOCKTABLE_V, 0, 0) == LOCKTABLE_NOT_SOUND, "a lower number goes first");
    locktable_empty(&t);
    expect(LOCKTABLE_EVENTS_LEFT(&t) == LOCKTABLE_EVENTS, "locktable_empty begins anew");
    printf("promises: after %d accepted events V and Exit are refused, and none are left\n", accepted);
}

/* What the header says a drain takes. */
static int drain_takes(const struct locktable *t)
{
    int events = 0;
    for (unsigned i = 0; i < LOCKTABLE_RESOURCES; i++)
        events += t->length[i];
    for (unsigned i = 0; i < LOCKTABLE_THREADS; i++)
        events += t->live[i];
    return events;
}

/* A V of anything that the running thread holds, or its Exit. */
static uint8_t let_go(struct dice *d, struct locktable *t, unsigned running)
{
    unsigned start = roll(d, LOCKTABLE_RESOURCES);
    for (unsigned i = 0; i < LOCKTABLE_RESOURCES; i++) {
        unsigned r = (start + i) % LOCKTABLE_RESOURCES;
        if (locktable_resource(t, (uint8_t)r).holder == running)
            return number_of(t, LOCKTABLE_V, running, r);
    }
    return number_of(t, LOCKTABLE_EXIT, running, 0);
}

/* Drains the table with as many events left as the header says that it takes, and none to spare. */
static void drain(struct dice *d, struct locktable *t)
{
    int takes = drain_takes(t), taken = 0;
    struct locktable drained = { .clock = LOCKTABLE_EVENTS };
    expect(takes <= LOCKTABLE_DRAIN, "a drain takes at most LOCKTABLE_DRAIN events");
    expect(takes <= LOCKTABLE_EVENTS_LEFT(t), "enough events are left for a drain");
    t->clock = (uint16_t)(LOCKTABLE_EVENTS - takes);
    for (unsigned running; (running = locktable_running(t).running) != LOCKTABLE_NOBODY; taken++)
        expect(let_go(d, t, running) == LOCKTABLE_ACCEPTED, "in a drain each V and Exit is accepted");
    expect(taken == takes && memcmp(t, &drained, sizeof *t) == 0, "a drain takes as many events as is said, and leaves nothing");
}

/* Events by chance, but no Create, Set or P once LOCKTABLE_DRAIN events are left or fewer. */
static void careful_history(struct dice *d, const struct mood *m, struct locktable *t)
{
    for (unsigned events = roll(d, 400); events > 0; events--) {
        struct locktable_record e = draw_record(d, m, t, locktable_running(t).running);
        if (LOCKTABLE_EVENTS_LEFT(t) > LOCKTABLE_DRAIN || e.kind == LOCKTABLE_V || e.kind == LOCKTABLE_EXIT)
            locktable_step(t, e);
    }
}

/* The longest drain: one thread holds every resource, and all the others wait. */
static struct locktable all_wait(void)
{
    struct locktable t;
    bool made = true;
    locktable_empty(&t);
    for (unsigned i = 0; i < LOCKTABLE_THREADS; i++) {
        made &= number_of(&t, LOCKTABLE_CREATE, i, i) == LOCKTABLE_ACCEPTED;
        for (unsigned r = 0; r < (i == 0 ? LOCKTABLE_RESOURCES : 1); r++)
            made &= number_of(&t, LOCKTABLE_P, i, r) == LOCKTABLE_ACCEPTED;
    }
    expect(made, "31 threads can wait for one");
    return t;
}

static void tables_drain(void)
{
    struct dice d = { 1 };
    struct chain c;
    int longest = 0;
    struct locktable t = all_wait();
    expect(drain_takes(&t) == LOCKTABLE_DRAIN, "a drain can take LOCKTABLE_DRAIN events");
    drain(&d, &t);
    for (int i = 0; i < HISTORIES; i++) {
        struct mood m = draw_mood(&d);
        if (i % 4 == 0)
            make_chain(&d, LOCKTABLE_RESOURCES, 100, 1, &t, &c);
        else
            locktable_empty(&t);
        t.clock = (uint16_t)(LOCKTABLE_EVENTS - LOCKTABLE_DRAIN - roll(&d, 300));
        careful_history(&d, &m, &t);
        longest = drain_takes(&t) > longest ? drain_takes(&t) : longest;
        drain(&d, &t);
    }
    printf("promises: a drain takes as many events as is said: %d where all wait, up to %d after %d histories\n",
           LOCKTABLE_DRAIN, longest, HISTORIES);
}

/* The live thread that was set first of those set at `from` or later, or LOCKTABLE_NOBODY. */
static unsigned set_next(const struct locktable *t, unsigned from)
{
    unsigned first = LOCKTABLE_NOBODY;
    for (unsigned i = 0; i < LOCKTABLE_THREADS; i++)
        if (t->live[i] && t->time[i] >= from && (first == LOCKTABLE_NOBODY || t->time[i] < t->time[first]))
            first = i;
    return first;
}

/* A table in which nobody holds anything is begun anew as the header says. */
static void begin_anew(struct locktable *t)
{
    struct locktable old = *t;
    unsigned thread, from = 0;
    locktable_empty(t);
    for (; (thread = set_next(&old, from)) != LOCKTABLE_NOBODY; from = old.time[thread] + 1u)
        expect(number_of(t, LOCKTABLE_CREATE, thread, old.priority[thread]) == LOCKTABLE_ACCEPTED, "each thread is created anew");
}

static void tables_begin_anew(void)
{
    struct dice d = { 2 };
    struct locktable t;
    struct locktable_record e;
    for (int i = 0; i < HISTORIES; i++) {
        struct mood m = { 1 + roll(&d, LOCKTABLE_THREADS), 1, 1 + roll(&d, 4), 0 };
        locktable_empty(&t);
        for (unsigned events = roll(&d, 200); events > 0; events--)
            if ((e = draw_busy_record(&d, &m, &t, locktable_running(&t).running)).kind < LOCKTABLE_P)
                locktable_step(&t, e);
        unsigned running = locktable_running(&t).running;
        if (running != LOCKTABLE_NOBODY) {
            expect(number_of(&t, LOCKTABLE_P, running, 0) == LOCKTABLE_ACCEPTED, "a resource that is free can be taken");
            expect(number_of(&t, LOCKTABLE_V, running, 0) == LOCKTABLE_ACCEPTED, "what is held can be given back");
        }
        begin_anew(&t);
        expect(locktable_running(&t).running == running, "the same thread runs where a table is begun anew");
        expect(locktable_thread(&t, (uint8_t)running).requests == 0, "totals begin at 0 where a table is begun anew");
    }
    printf("promises: a table where nobody holds anything is begun anew, and the same thread runs, %d times\n", HISTORIES);
}

/* An accepted P names its thread as running exactly if that holds the resource then. */
static void running_holds(void)
{
    struct dice d = { 3 };
    struct mood m = { LOCKTABLE_THREADS, LOCKTABLE_RESOURCES, 256, 0 };
    struct locktable t;
    int held = 0, waited = 0;
    locktable_empty(&t);
    while (held < HISTORIES || waited < HISTORIES) {
        struct locktable_record e = draw_busy_record(&d, &m, &t, locktable_running(&t).running);
        struct locktable_answer a = locktable_step(&t, e);
        if (e.kind != LOCKTABLE_P || a.number != LOCKTABLE_ACCEPTED)
            continue;
        bool holds = locktable_resource(&t, e.argument).holder == e.thread;
        expect(holds == (a.running == e.thread), "after a P its thread runs exactly if it holds the resource");
        holds ? held++ : waited++;
    }
    printf("promises: after a P its thread runs exactly if it holds the resource: %d times it does, %d it waits\n", held, waited);
}

/* Of each thread since its last Create: its accepted P and V, and how often it came to hold a resource. */
struct totals { unsigned requests[LOCKTABLE_THREADS], releases[LOCKTABLE_THREADS], got[LOCKTABLE_THREADS]; };

/* After an accepted event. A P or V that leaves a holder behind has made it holder, but for a P that waits. */
static void count_event(struct totals *totals, const struct locktable *t, struct locktable_record e)
{
    if (e.kind == LOCKTABLE_CREATE)
        totals->requests[e.thread] = totals->releases[e.thread] = totals->got[e.thread] = 0;
    if (e.kind != LOCKTABLE_P && e.kind != LOCKTABLE_V)
        return;
    unsigned holder = locktable_resource(t, e.argument).holder;
    totals->requests[e.thread] += e.kind == LOCKTABLE_P;
    totals->releases[e.thread] += e.kind == LOCKTABLE_V;
    if (holder != LOCKTABLE_NOBODY && (e.kind == LOCKTABLE_V || holder == e.thread))
        totals->got[holder]++;
}

static unsigned resources_held(const struct locktable *t, unsigned thread)
{
    unsigned held = 0;
    for (uint8_t r = 0; r < LOCKTABLE_RESOURCES; r++)
        held += locktable_resource(t, r).holder == thread;
    return held;
}

/* A thread's totals are those of the events, and what the header reads from them is so. Of a dead one zeros are shown. */
static void expect_totals(const struct locktable *t, const struct totals *totals, unsigned thread)
{
    struct locktable_thread_answer a = locktable_thread(t, (uint8_t)thread);
    unsigned waits = a.waits_for != LOCKTABLE_NOTHING;
    if (a.number != LOCKTABLE_ACCEPTED) {
        expect(a.number == LOCKTABLE_NOT_LIVE && a.requests == 0 && a.releases == 0, "a dead thread has no totals");
        return;
    }
    expect(a.requests == totals->requests[thread] && a.releases == totals->releases[thread], "totals are those of the events since a Create");
    expect(a.requests == totals->got[thread] + waits, "requests, less 1 if it waits, are how often a thread got a lock");
    expect(a.requests == a.releases + resources_held(t, thread) + waits, "that less releases is how many it holds");
}

/* One thread takes a resource and gives it back until the table has come to its end. */
static unsigned longest_totals(void)
{
    struct totals totals = { { 0 }, { 0 }, { 0 } };
    struct locktable t;
    locktable_empty(&t);
    expect(number_of(&t, LOCKTABLE_CREATE, 0, 10) == LOCKTABLE_ACCEPTED, "a thread can be created");
    while (LOCKTABLE_EVENTS_LEFT(&t) > 0) {
        struct locktable_record e = { totals.requests[0] == totals.releases[0] ? LOCKTABLE_P : LOCKTABLE_V, 0, 0, 0 };
        expect(locktable_step(&t, e).number == LOCKTABLE_ACCEPTED, "a resource can be taken and given back while events are left");
        count_event(&totals, &t, e);
    }
    expect_totals(&t, &totals, 0);
    return totals.requests[0];
}

/* Histories with refused events among them: after each accepted one its thread, and in the end all threads. */
static void totals_are_counted(void)
{
    struct dice d = { 8 };
    struct locktable t;
    for (int i = 0; i < HISTORIES; i++) {
        struct mood m = draw_mood(&d);
        struct totals totals = { { 0 }, { 0 }, { 0 } };
        locktable_empty(&t);
        for (unsigned events = roll(&d, 300); events > 0; events--) {
            struct locktable_record e = draw_record(&d, &m, &t, locktable_running(&t).running);
            if (locktable_step(&t, e).number != LOCKTABLE_ACCEPTED)
                continue;
            count_event(&totals, &t, e);
            expect_totals(&t, &totals, e.thread);
        }
        for (unsigned thread = 0; thread < LOCKTABLE_THREADS; thread++)
            expect_totals(&t, &totals, thread);
    }
    printf("promises: totals are those of the events, in %d histories and up to %u requests of one thread\n", HISTORIES, longest_totals());
}

/* A record that differs from its neighbours. */
static struct locktable_record record_number(uint32_t n)
{
    return (struct locktable_record){ (uint8_t)(1 + n % 5), (uint8_t)(n % 32), (uint8_t)(n / 7), (uint8_t)(n >> 8) };
}

/* The log of the first n such records, in a buffer that is large enough. */
static void make_log(uint8_t *log, size_t size, uint32_t n)
{
    for (uint32_t i = 0; i < n; i++)
        expect(locktable_log(log, size, i, record_number(i)) == LOCKTABLE_ACCEPTED, "a log takes one record after the other");
}

/* The call answers with this number on a page that may only be read, and changes nothing on one that may be written. */
static void refused_and_read(const uint8_t *log, size_t size, size_t said, uint32_t so_far, uint8_t number)
{
    uint8_t *there = copy_on_page(log, size, PROT_READ | PROT_WRITE);
    expect(locktable_log(there, said, so_far, record_number(so_far)) == number, "each refusal of the log has its number");
    expect(memcmp(there, log, size) == 0, "a refused call of the log changes no byte");
    there = copy_on_page(log, size, PROT_READ);
    expect(locktable_log(there, said, so_far, record_number(so_far)) == number, "the log refuses on a page that may only be read");
}

static void refused_logs_only_read(void)
{
    enum { BEFORE = 62 };
    uint8_t log[LOCKTABLE_BLOCK];
    make_log(log, sizeof log, BEFORE);
    refused_and_read(log, sizeof log, sizeof log, LOCKTABLE_EVENTS, LOCKTABLE_CLOCK_RUN_OUT);
    refused_and_read(log, sizeof log, 0, UINT32_MAX, LOCKTABLE_CLOCK_RUN_OUT);
    refused_and_read(log, sizeof log, sizeof log - 1, BEFORE, LOCKTABLE_LOG_TOO_SHORT);
    refused_and_read(log, sizeof log, 0, 0, LOCKTABLE_LOG_TOO_SHORT);
    refused_and_read(log, sizeof log, sizeof log, BEFORE + 1, LOCKTABLE_LOG_NOT_AS_SAID);
    log[LOCKTABLE_BLOCK - 1] ^= 1;
    refused_and_read(log, sizeof log, sizeof log, BEFORE, LOCKTABLE_LOG_NOT_AS_SAID);
    pid_t child = new_child();
    if (child == 0) {
        locktable_log(copy_on_page(log, sizeof log, PROT_READ), sizeof log, 0, record_number(0));
        _exit(0);
    }
    expect(signal_of_child(child) == SIGSEGV, "an accepted call of the log writes");
    printf("promises: a refused call of the log answers on a page that may only be read\n");
}

/* Of three pages only the one in the midst may be touched, and the log goes through all blocks there. */
static void logs_touch_one_block(void)
{
    uint8_t *log = new_pages(3), before[LOCKTABLE_BLOCK];
    uint32_t blocks = (uint32_t)page_size() / LOCKTABLE_BLOCK, records = blocks * LOCKTABLE_BLOCK_RECORDS;
    protect(log, PROT_NONE);
    protect(log + 2 * page_size(), PROT_NONE);
    for (uint32_t n = records; n < 2 * records; n++)
        expect(locktable_log(log, 3 * page_size(), n, record_number(n)) == LOCKTABLE_ACCEPTED, "the log looks at no other block");
    uint8_t *last = log + 2 * page_size() - LOCKTABLE_BLOCK;
    memcpy(before, last, sizeof before);
    for (uint32_t n = 2 * records - 2 * LOCKTABLE_BLOCK_RECORDS; n < 2 * records - LOCKTABLE_BLOCK_RECORDS; n++)
        expect(locktable_log(log, 3 * page_size(), n, record_number(n)) == LOCKTABLE_ACCEPTED, "a block may be written once more");
    expect(memcmp(before, last, sizeof before) == 0, "the log changes no other block");
    printf("promises: the log touches the block that takes the record and no other page: %u records\n", records);
}

/* Whether the log has these n records, where the header says, and its blocks their numbers and counts. */
static bool log_has(const uint8_t *log, const struct locktable_record *records, uint32_t n)
{
    for (uint32_t i = 0; i < n; i++) {
        const uint8_t *block = log + LOCKTABLE_BLOCK * (i / LOCKTABLE_BLOCK_RECORDS);
        uint32_t number = block[0] + 256u * block[1], left = n - number * LOCKTABLE_BLOCK_RECORDS;
        if (number != i / LOCKTABLE_BLOCK_RECORDS || block[COUNT_AT] != (left < LOCKTABLE_BLOCK_RECORDS ? left : LOCKTABLE_BLOCK_RECORDS)
            || memcmp(block + RECORDS_AT + RECORD * (i % LOCKTABLE_BLOCK_RECORDS), &records[i], RECORD) != 0)
            return false;
    }
    return true;
}

/* Whether the log of this table's events is read fully, to the same table, where it is lent as the header says. */
static bool leads_to(const uint8_t *log, const struct locktable *table)
{
    struct locktable_replayed r = locktable_replay(log, (size_t)LOCKTABLE_LOG_BLOCKS(table->clock) * LOCKTABLE_BLOCK);
    return r.number == LOCKTABLE_ACCEPTED && r.records == table->clock && memcmp(&r.table, table, sizeof *table) == 0;
}

/* The step, then the log if it is accepted, as the header has it: the log has the accepted records and no others. Each history begins anew
   with locktable_empty, on a buffer that is not cleared. */
static void logs_keep_what_is_accepted(void)
{
    enum { MOST = 600, SIZE = LOCKTABLE_BLOCK * LOCKTABLE_LOG_BLOCKS(MOST) };
    static uint8_t log[SIZE], before[SIZE];
    struct locktable_record accepted[MOST];
    struct dice d = { 7 };
    struct locktable table;
    uint32_t most = 0;
    draw_bytes(&d, log, sizeof log);
    for (int i = 0; i < HISTORIES; i++) {
        struct mood m = draw_mood(&d);
        uint32_t n = 0;
        locktable_empty(&table);
        memcpy(before, log, sizeof log);
        for (unsigned events = roll(&d, MOST); events > 0; events--) {
            struct locktable_record e = draw_record(&d, &m, &table, locktable_running(&table).running);
            if (locktable_step(&table, e).number != LOCKTABLE_ACCEPTED)
                continue;
            accepted[n++] = e;
            expect(locktable_log(log, sizeof log, table.clock - 1u, e) == LOCKTABLE_ACCEPTED, "the log takes what the table has taken");
        }
        size_t end = (size_t)LOCKTABLE_BLOCK * LOCKTABLE_LOG_BLOCKS(n);
        expect(n == table.clock && log_has(log, accepted, n), "the log has the accepted records");
        expect(leads_to(log, &table), "a log of accepted events is read fully, and leads to their table");
        expect(memcmp(log + end, before + end, sizeof log - end) == 0, "what stands behind the log is as it was");
        most = n > most ? n : most;
    }
    printf("promises: the log has what was accepted, and is read back, after %d histories of up to %u accepted events\n", HISTORIES, most);
}

/* A buffer of LOCKTABLE_LOG_SIZE bytes, and one that is a byte shorter. */
static void logs_come_to_their_end(void)
{
    static uint8_t log[LOCKTABLE_LOG_SIZE], whole[LOCKTABLE_LOG_SIZE];
    static struct locktable_record records[LOCKTABLE_EVENTS];
    uint32_t n = 0;
    for (uint32_t i = 0; i < LOCKTABLE_EVENTS; i++)
        records[i] = record_number(i);
    make_log(log, sizeof log, LOCKTABLE_EVENTS);
    expect(log_has(log, records, LOCKTABLE_EVENTS), "a log of all events has them");
    memcpy(whole, log, sizeof log);
    expect(locktable_log(log, sizeof log, LOCKTABLE_EVENTS, records[0]) == LOCKTABLE_CLOCK_RUN_OUT, "no record comes behind the last one");
    expect(memcmp(log, whole, sizeof log) == 0, "a log that has come to its end stays as it is");
    while (locktable_log(log, sizeof log - 1, n, records[n]) == LOCKTABLE_ACCEPTED)
        n++;
    expect(n == (LOCKTABLE_LOG_SIZE / LOCKTABLE_BLOCK - 1) * LOCKTABLE_BLOCK_RECORDS, "the last block does not fit in a byte less");
    printf("promises: a log of %d bytes takes %d records and no more, one that is a byte shorter %u\n", LOCKTABLE_LOG_SIZE, LOCKTABLE_EVENTS, n);
}

/* Where the buffer is too short the same call may be made on a larger one, which has the log so far. */
static void logs_move(void)
{
    uint8_t log[LOCKTABLE_BLOCK], larger[2 * LOCKTABLE_BLOCK];
    struct locktable_record records[LOCKTABLE_BLOCK_RECORDS + 1], *next = &records[LOCKTABLE_BLOCK_RECORDS];
    for (uint32_t i = 0; i <= LOCKTABLE_BLOCK_RECORDS; i++)
        records[i] = record_number(i);
    make_log(log, sizeof log, LOCKTABLE_BLOCK_RECORDS);
    expect(locktable_log(log, sizeof log, LOCKTABLE_BLOCK_RECORDS, *next) == LOCKTABLE_LOG_TOO_SHORT, "a full buffer is too short");
    memcpy(larger, log, sizeof log);
    expect(locktable_log(larger, sizeof larger, LOCKTABLE_BLOCK_RECORDS, *next) == LOCKTABLE_ACCEPTED
           && log_has(larger, records, LOCKTABLE_BLOCK_RECORDS + 1), "a log goes on in a larger buffer");
    printf("promises: a log whose buffer is too short goes on in a larger one\n");
}

/* What the check tells and what it does not; and a block that is refused stays so, but the next one begins. */
static void changes_are_noticed(void)
{
    enum { BEFORE = 62 };
    uint8_t log[2 * LOCKTABLE_BLOCK], kept[2 * LOCKTABLE_BLOCK];
    unsigned changes = 0, exchanges = 0;
    struct locktable_record e = record_number(BEFORE);
    memset(log, 0, sizeof log);
    make_log(log, sizeof log, BEFORE);
    memcpy(kept, log, sizeof log);
    for (unsigned i = 0; i < LOCKTABLE_BLOCK; i++) {
        for (log[i]++; log[i] != kept[i]; log[i]++, changes++)
            expect(locktable_log(log, sizeof log, BEFORE, e) == LOCKTABLE_LOG_NOT_AS_SAID, "one changed byte is noticed");
        for (unsigned k = 0; k < i; k++) {
            log[i] = kept[k], log[k] = kept[i];
            if (kept[i] != kept[k] && ++exchanges)
                expect(locktable_log(log, sizeof log, BEFORE, e) == LOCKTABLE_LOG_NOT_AS_SAID, "an exchange of two bytes is noticed");
            log[i] = kept[i], log[k] = kept[k];
        }
    }
    log[8]++;
    for (uint32_t n = BEFORE; n < LOCKTABLE_BLOCK_RECORDS; n++)
        expect(locktable_log(log, sizeof log, n, e) == LOCKTABLE_LOG_NOT_AS_SAID, "a block that was refused is refused again");
    expect(locktable_log(log, sizeof log, LOCKTABLE_BLOCK_RECORDS, e) == LOCKTABLE_ACCEPTED, "the next block begins all the same");
    log[8]++;
    log[17]--;
    expect(locktable_log(log, sizeof log, BEFORE, e) == LOCKTABLE_ACCEPTED, "2 more at byte 8 and 1 less at byte 17 are not noticed");
    printf("promises: the log notices each of %u changes of a byte and of %u exchanges of two\n", changes, exchanges);
}

/* An event that is accepted there: a thread comes, takes the printer and gives it back, and so on. */
static struct locktable_record turn_number(uint32_t n)
{
    static const uint8_t kinds[] = { LOCKTABLE_P, LOCKTABLE_SET, LOCKTABLE_V, LOCKTABLE_SET };
    if (n == 0)
        return (struct locktable_record){ LOCKTABLE_CREATE, 7, 9, 0 };
    return (struct locktable_record){ kinds[(n - 1) % 4], 7, (uint8_t)((n - 1) / 4 % LOCKTABLE_RESOURCES), 0 };
}

/* The table after the first n of these, and their log. */
static struct locktable after_turns(uint8_t *log, size_t size, uint32_t n)
{
    struct locktable t;
    locktable_empty(&t);
    for (uint32_t i = 0; i < n; i++) {
        expect(locktable_step(&t, turn_number(i)).number == LOCKTABLE_ACCEPTED, "a thread takes a resource and gives it back");
        expect(locktable_log(log, size, i, turn_number(i)) == LOCKTABLE_ACCEPTED, "the log takes each of these");
    }
    return t;
}

static void mend_check(uint8_t *block)
{
    uint32_t sum = 0;
    for (uint32_t i = 0; i < LOCKTABLE_BLOCK - 4; i++)
        sum += (i + 1) * block[i];
    for (unsigned i = 0; i < 4; i++)
        block[LOCKTABLE_BLOCK - 4 + i] = (uint8_t)(sum >> 8 * i);
}

/* By the convention a large answer is written where the call's first argument says, which is not among those in C. So the room can be chosen. */
typedef void (LOCKTABLE_ABI read_into)(struct locktable_replayed *room, const uint8_t *log, size_t size);

/* Room for an answer, of ones, that ends where a page does. */
static struct locktable_replayed *room_on_page(void)
{
    uint8_t ones[sizeof(struct locktable_replayed)];
    memset(ones, UINT8_MAX, sizeof ones);
    return (struct locktable_replayed *)(void *)copy_on_page(ones, sizeof ones, PROT_READ | PROT_WRITE);
}

/* The log lies on a page that may only be read and ends with it, as does the room for the answer; what follows may not be touched. */
static void read_to(const uint8_t *log, size_t size, uint8_t number, uint32_t records)
{
    uint8_t again[3 * LOCKTABLE_BLOCK];
    struct locktable want = after_turns(again, sizeof again, records);
    struct locktable_replayed *r = room_on_page();
    ((read_into *)(void (*)(void))locktable_replay)(r, copy_on_page(log, size, PROT_READ), size);
    expect(r->number == number && r->records == records, "each log that is read back has its answer, on a page that may only be read");
    expect(memcmp(&r->table, &want, sizeof want) == 0, "where the reading is stopped the table is that of the records before");
}

/* A log of three blocks, and each refusal. Behind a wrong length no byte is looked at. */
static void logs_are_only_read(void)
{
    enum { BLOCK = LOCKTABLE_BLOCK, RECORDS = LOCKTABLE_BLOCK_RECORDS, ALL = 2 * RECORDS + 50, SIZE = 3 * BLOCK };
    uint8_t log[SIZE], harmed[SIZE];
    after_turns(log, sizeof log, ALL);
    read_to(log, 0, LOCKTABLE_ACCEPTED, 0);
    read_to(log, SIZE, LOCKTABLE_ACCEPTED, ALL);
    read_to(log, 2 * BLOCK, LOCKTABLE_ACCEPTED, 2 * RECORDS);
    read_to(log, SIZE - 1, LOCKTABLE_LOG_LENGTH, 0);
    memcpy(harmed, log, sizeof log);
    harmed[BLOCK + 100]++;
    read_to(harmed, SIZE, LOCKTABLE_LOG_NOT_AS_SAID, RECORDS);
    memcpy(harmed, log, sizeof log);
    memset(harmed + BLOCK + RECORDS_AT + RECORD * 60, 0, RECORD * (RECORDS - 60));
    harmed[BLOCK + COUNT_AT] = 60;
    mend_check(harmed + BLOCK);
    read_to(harmed, SIZE, LOCKTABLE_BLOCK_NOT_FULL, RECORDS);
    read_to(harmed, 2 * BLOCK, LOCKTABLE_ACCEPTED, RECORDS + 60);
    harmed[BLOCK + RECORDS_AT + RECORD * 30 + 1] = 32;
    mend_check(harmed + BLOCK);
    read_to(harmed, 2 * BLOCK, LOCKTABLE_NO_SUCH_THREAD, RECORDS + 30);
    printf("promises: a log is read back on a page that may only be read, to its end or to the refusal that stops it\n");
}

/* Pages that may not be touched at all. Some of the sizes are those of a short log if their high bits are left out. */
static void lengths_come_first(void)
{
    static const uint64_t sizes[] = {
        1, LOCKTABLE_BLOCK - 1, LOCKTABLE_BLOCK + 1, LOCKTABLE_LOG_SIZE - 1, LOCKTABLE_LOG_SIZE + 1, LOCKTABLE_LOG_SIZE + LOCKTABLE_BLOCK,
        65536 * LOCKTABLE_BLOCK, 65537 * LOCKTABLE_BLOCK, (uint64_t)1 << 32, ((uint64_t)1 << 32) + LOCKTABLE_BLOCK,
    };
    size_t most = (size_t)sizes[sizeof sizes / sizeof *sizes - 1];
    const uint8_t *log = mmap(0, most, PROT_NONE, MAP_PRIVATE | MAP_ANONYMOUS | MAP_NORESERVE, -1, 0);
    struct locktable none;
    expect(log != MAP_FAILED, "so many pages can be had that may not be touched");
    locktable_empty(&none);
    for (size_t i = 0; i < sizeof sizes / sizeof *sizes; i++) {
        struct locktable_replayed r = locktable_replay(log, (size_t)sizes[i]);
        expect(r.number == LOCKTABLE_LOG_LENGTH && r.records == 0, "a length that no log has is refused");
        expect(memcmp(&r.table, &none, sizeof none) == 0, "where a length is refused the table is the empty one");
    }
    expect(leads_to(log, &none), "no bytes give the empty table");
    expect(munmap((void *)log, most) == 0, "pages can be given back");
    printf("promises: lengths that no log has are refused before the log is looked at\n");
}

/* A buffer with room behind its log: lent whole, lent as the header says, and with an older log's blocks behind. */
static void buffers_are_cut(void)
{
    enum { BLOCK = LOCKTABLE_BLOCK, RECORDS = LOCKTABLE_BLOCK_RECORDS };
    uint8_t card[4 * BLOCK] = { 0 };
    struct locktable table = after_turns(card, sizeof card, RECORDS + 1);
    struct locktable_replayed r = locktable_replay(card, sizeof card);
    expect(r.number == LOCKTABLE_BLOCK_NOT_FULL && r.records == RECORDS, "with unused blocks behind it a log lacks its last block");
    expect(leads_to(card, &table), "without the unused blocks it is read fully");
    table = after_turns(card, sizeof card, 2 * RECORDS);
    r = locktable_replay(card, sizeof card);
    expect(r.number == LOCKTABLE_LOG_NOT_AS_SAID && r.records == 2 * RECORDS, "behind a full last block the reading is stopped by 14");
    expect(leads_to(card, &table), "a full last block is read");
    after_turns(card, sizeof card, 4 * RECORDS);
    table = after_turns(card, sizeof card, RECORDS);
    expect(locktable_replay(card, sizeof card).records == 4 * RECORDS, "the reading goes on into blocks that an older log left");
    expect(leads_to(card, &table), "but not where the log alone is lent");
    printf("promises: a buffer that is longer than its log is read to the log's end where that much is lent\n");
}

/* All 525 blocks, of 65,535 records; then one record more, which the log's own call does not take. */
static void longest_log_is_read(void)
{
    static uint8_t log[LOCKTABLE_LOG_SIZE];
    uint8_t *last = log + LOCKTABLE_LOG_SIZE - LOCKTABLE_BLOCK;
    struct locktable table = after_turns(log, sizeof log, LOCKTABLE_EVENTS);
    struct locktable_record e = turn_number(LOCKTABLE_EVENTS);
    expect(leads_to(log, &table) && LOCKTABLE_EVENTS_LEFT(&table) == 0, "the longest log is read to its table");
    memcpy(last + RECORDS_AT + RECORD * last[COUNT_AT], &e, sizeof e);
    last[COUNT_AT]++;
    mend_check(last);
    struct locktable_replayed r = locktable_replay(log, sizeof log);
    expect(r.number == LOCKTABLE_CLOCK_RUN_OUT && r.records == LOCKTABLE_EVENTS, "record 65,536 is refused with 5");
    expect(memcmp(&r.table, &table, sizeof table) == 0, "the table then is that of the 65,535 before");
    printf("promises: a log of %d records is read back to its table, and one record more is refused\n", LOCKTABLE_EVENTS);
}

/* A table of any kind: all ones, zeros, one in use, or noise. */
static struct locktable any_table(struct dice *d, int kind)
{
    struct locktable t = two_holders();
    switch (kind % 4) {
    case 0: memset(&t, UINT8_MAX, sizeof t); break;
    case 1: locktable_empty(&t); break;
    case 2: break;
    default: fill_with_noise(d, &t); break;
    }
    return t;
}

static void shipments_start(void)
{
    struct dice d = { 9 };
    struct locktable want;
    locktable_empty(&want);
    for (unsigned id = 0; id < TERMINAL_TASKS; id++)
        expect(number_of(&want, LOCKTABLE_CREATE, id, priorities[id]) == LOCKTABLE_ACCEPTED, "the fixed tasks can be created one by one");
    for (int i = 0; i < HISTORIES; i++) {
        struct locktable held = any_table(&d, i), *t = on_page(&held, PROT_READ | PROT_WRITE);
        struct locktable_answer a = terminal_start(t);
        expect(a.number == LOCKTABLE_ACCEPTED && a.running == TERMINAL_DRAW && a.count == 1, "a start answers as the last Create does");
        expect(memcmp(t, &want, sizeof want) == 0, "a start leaves what the Creates of the fixed tasks make of the empty table");
    }
    expect(want.clock == 16 && locktable_running(&want).running == 0, "after the start the clock is 16 and task 0 runs");
    printf("promises: a shipment starts as by sixteen steps on the empty table, %d times, whatever the table held\n", HISTORIES);
}

/* Whether the one's current precedence is above the other's. */
static bool above(const struct locktable *t, uint8_t one, uint8_t other)
{
    struct locktable_thread_answer a = locktable_thread(t, one), b = locktable_thread(t, other);
    return a.current_priority > b.current_priority || (a.current_priority == b.current_priority && a.current_time < b.current_time);
}

/* The order at the start; then tasks end and come back, fixed ones by the step, spare ones by the call that added them. */
static void tasks_come_back(void)
{
    struct locktable t;
    terminal_start(&t);
    for (uint8_t one = 0; one < TERMINAL_TASKS; one++)
        for (uint8_t other = one + 1; other < TERMINAL_TASKS; other++)
            expect(above(&t, one, other), "at the start each fixed task's precedence is above that of all after it");
    for (unsigned id = 0; id < TERMINAL_TASKS; id++)
        expect(number_of(&t, LOCKTABLE_EXIT, id, 0) == LOCKTABLE_ACCEPTED, "one fixed task after the other runs, and may end");
    for (unsigned id = TERMINAL_TASKS; id-- > 0;)
        expect(number_of(&t, LOCKTABLE_CREATE, id, priorities[id]) == LOCKTABLE_ACCEPTED, "a fixed task that has ended comes back");
    for (int turn = 0; turn < 2; turn++)
        for (unsigned id = TERMINAL_FIRST_SPARE; id <= TERMINAL_LAST_SPARE; id++) {
            expect(terminal_spare_at(&t, (uint8_t)id, 255).running == id, "a spare task above the others runs");
            expect(number_of(&t, LOCKTABLE_EXIT, id, 0) == LOCKTABLE_ACCEPTED, "a spare task may end, and its id be used again");
        }
    expect(locktable_running(&t).running == TERMINAL_DRAW, "the draw runs again when it has come back");
    printf("promises: fixed tasks start in their order, and come back after they end, as spare ones do\n");
}

/* An event by chance or a spare task, with no Create or Set above the most, and none that is the draw's own. */
static void mild_event(struct dice *d, const struct mood *m, struct locktable *t, unsigned most)
{
    bool spare = roll(d, 8) == 0;
    struct locktable_record e = spare ? draw_spare(d, m) : draw_record(d, m, t, locktable_running(t).running);
    if (e.kind == LOCKTABLE_CREATE || e.kind == LOCKTABLE_SET)
        e.argument = (uint8_t)(e.argument % (most + 1));
    if (spare)
        terminal_spare_at(t, e.thread, e.argument);
    else if (e.thread != TERMINAL_DRAW || e.kind == LOCKTABLE_P || e.kind == LOCKTABLE_V)
        locktable_step(t, e);
}

static void draw_runs_from_the_start(struct dice *d, const struct mood *m, struct locktable *t)
{
    terminal_start(t);
    for (unsigned events = roll(d, 200); events > 0; events--) {
        mild_event(d, m, t, priorities[TERMINAL_DRAW]);
        expect(locktable_running(t).running == TERMINAL_DRAW, "from the start on the draw runs until it is set or ended");
    }
}

/* A set of those who hold or wait: bit i for thread i. */
static uint32_t in_queues(const struct locktable *t)
{
    uint32_t set = 0;
    for (unsigned r = 0; r < LOCKTABLE_RESOURCES; r++)
        for (unsigned i = 0; i < t->length[r]; i++)
            set |= (uint32_t)1 << t->queue[LOCKTABLE_THREADS * r + i];
    return set;
}

/* Whether it has the draw's place: only who has held or waited since the draw came may run instead of it, and at its precedence. */
static bool runs_for_draw(const struct locktable *t, unsigned thread, uint32_t since)
{
    struct locktable_thread_answer one = locktable_thread(t, (uint8_t)thread), draw = locktable_thread(t, TERMINAL_DRAW);
    return (since >> thread & 1) != 0 && one.current_priority == draw.priority && one.current_time == draw.time;
}

/* Others take locks while the draw is away; then it comes back. Gives how often another ran from then on. */
static int draw_comes_back(struct dice *d, const struct mood *m, struct locktable *t)
{
    int others = 0;
    terminal_start(t);
    expect(number_of(t, LOCKTABLE_EXIT, TERMINAL_DRAW, 0) == LOCKTABLE_ACCEPTED, "the draw may end");
    for (unsigned events = roll(d, 200); events > 0; events--)
        mild_event(d, m, t, priorities[TERMINAL_DRAW] - 1);
    expect(number_of(t, LOCKTABLE_CREATE, TERMINAL_DRAW, priorities[TERMINAL_DRAW]) == LOCKTABLE_ACCEPTED, "the draw comes back");
    uint32_t since = in_queues(t);
    for (unsigned events = roll(d, 200); events > 0; events--) {
        mild_event(d, m, t, priorities[TERMINAL_DRAW]);
        since &= in_queues(t);
        unsigned running = locktable_running(t).running;
        expect(running == TERMINAL_DRAW || runs_for_draw(t, running, since), "nobody who came later runs ahead of the draw");
        others += running != TERMINAL_DRAW;
    }
    return others;
}

static void draw_is_first(void)
{
    struct dice d = { 10 };
    struct locktable t;
    int others = 0;
    for (int i = 0; i < HISTORIES; i++) {
        struct mood m = { LOCKTABLE_THREADS, 1 + roll(&d, 6), 256, 2 };
        draw_runs_from_the_start(&d, &m, &t);
        others += draw_comes_back(&d, &m, &t);
    }
    expect(others > 0, "at times another runs, while the draw waits");
    printf("promises: the draw runs from the start on; in its place only who held or waited when it came, %d times\n", others);
}

/* The log of a shipment begins with the fixed tasks, as the header has it. */
static void start_and_keep(struct locktable *table, uint8_t *log, size_t size)
{
    expect(terminal_start(table).number == LOCKTABLE_ACCEPTED, "a shipment starts");
    for (uint8_t id = 0; id < TERMINAL_TASKS; id++) {
        struct locktable_record e = { LOCKTABLE_CREATE, id, priorities[id], 0 };
        expect(locktable_log(log, size, id, e) == LOCKTABLE_ACCEPTED, "the log takes the fixed tasks");
    }
}

/* What steps make of the empty table by the records of a log. */
static struct locktable read_back(const uint8_t *log, uint32_t records)
{
    struct locktable t;
    locktable_empty(&t);
    for (uint32_t n = 0; n < records; n++) {
        const uint8_t *at = log + LOCKTABLE_BLOCK * (n / LOCKTABLE_BLOCK_RECORDS) + RECORDS_AT + RECORD * (n % LOCKTABLE_BLOCK_RECORDS);
        struct locktable_record e = { at[0], at[1], at[2], at[3] };
        expect(locktable_step(&t, e).number == LOCKTABLE_ACCEPTED, "what the log has is accepted again");
    }
    return t;
}

/* A spare task, without a priority or with one, and its record, which has the priority that it got. */
static struct locktable_answer add_spare(struct dice *d, struct locktable *table, struct locktable_record *e)
{
    if (roll(d, 2) == 0)
        return terminal_spare_at(table, e->thread, e->argument);
    e->argument = TERMINAL_SPARE_PRIORITY;
    return terminal_spare(table, e->thread);
}

/* A log that is kept as the header has it leads to the same table by steps alone. */
static void shipments_are_logged(void)
{
    enum { MOST = 600, SIZE = LOCKTABLE_BLOCK * LOCKTABLE_LOG_BLOCKS(TERMINAL_TASKS + MOST) };
    static uint8_t log[SIZE];
    struct dice d = { 11 };
    struct locktable table, again;
    int spares = 0;
    draw_bytes(&d, log, sizeof log);
    for (int i = 0; i < HISTORIES; i++) {
        struct mood m = { LOCKTABLE_THREADS, LOCKTABLE_RESOURCES, 256, 5 };
        start_and_keep(&table, log, sizeof log);
        for (unsigned events = roll(&d, MOST); events > 0; events--) {
            bool spare = roll(&d, 8) == 0;
            struct locktable_record e = spare ? draw_spare(&d, &m) : draw_record(&d, &m, &table, locktable_running(&table).running);
            struct locktable_answer a = spare ? add_spare(&d, &table, &e) : locktable_step(&table, e);
            if (a.number != LOCKTABLE_ACCEPTED)
                continue;
            expect(locktable_log(log, sizeof log, table.clock - 1u, e) == LOCKTABLE_ACCEPTED, "the log takes what the table has taken");
            spares += spare;
        }
        again = read_back(log, table.clock);
        expect(memcmp(&again, &table, sizeof table) == 0, "the log of a shipment leads to its table");
        expect(leads_to(log, &table), "the log of a shipment is read fully");
    }
    printf("promises: the log of a shipment leads to its table, by steps alone and read back, %d times, with %d spare tasks\n", HISTORIES, spares);
}

/* A history that goes on by itself: each event depends on its own table and dice alone. `heard` takes in all answers. */
struct player {
    struct locktable table;
    uint8_t log[LOCKTABLE_LOG_SIZE];
    struct dice dice;
    struct mood mood;
    uint64_t heard;
    unsigned long played;
};

/* Whether this processor is in the midst of a call. */
static _Thread_local volatile sig_atomic_t in_a_call;

static struct player new_player(uint64_t seed)
{
    struct player p = { .dice = { seed }, .mood = { LOCKTABLE_THREADS, LOCKTABLE_RESOURCES, 8, 5 } };
    locktable_empty(&p.table);
    return p;
}

/* Its log is read back, every once in a while. */
static void open_at_times(struct player *p)
{
    if (roll(&p->dice, 200) > 0)
        return;
    in_a_call = 1;
    bool same = leads_to(p->log, &p->table);
    in_a_call = 0;
    expect(same, "the log that was kept beside others is read back to its table");
}

/* A table begins anew when it has come to its end, and every once in a while before that as a shipment. */
static void begin_at_times(struct player *p)
{
    if (LOCKTABLE_EVENTS_LEFT(&p->table) == 0)
        locktable_empty(&p->table);
    if (roll(&p->dice, 400) > 0)
        return;
    in_a_call = 1;
    start_and_keep(&p->table, p->log, sizeof p->log);
    in_a_call = 0;
}

static void play(struct player *p)
{
    open_at_times(p);
    begin_at_times(p);
    in_a_call = 1;
    unsigned running = locktable_running(&p->table).running;
    in_a_call = 0;
    bool spare = roll(&p->dice, 8) == 0;
    struct locktable_record e = spare ? draw_spare(&p->dice, &p->mood) : draw_record(&p->dice, &p->mood, &p->table, running);
    in_a_call = 1;
    struct locktable_answer a = spare ? add_spare(&p->dice, &p->table, &e) : locktable_step(&p->table, e);
    struct locktable_thread_answer thread = locktable_thread(&p->table, e.thread);
    struct locktable_resource_answer resource = locktable_resource(&p->table, e.argument);
    uint8_t logged = a.number != LOCKTABLE_ACCEPTED ? a.number : locktable_log(p->log, sizeof p->log, p->table.clock - 1u, e);
    in_a_call = 0;
    uint64_t said[] = { a.number, a.running, a.count, thread.current_priority, thread.current_time, thread.requests, thread.releases,
                        resource.holder, logged };
    for (size_t i = 0; i < sizeof said / sizeof *said; i++)
        p->heard = mix(p->heard ^ said[i]);
    p->played++;
}

/* Whether a player has come to where the same player comes alone. */
static bool as_alone(const struct player *p, uint64_t seed)
{
    struct player alone = new_player(seed);
    while (alone.played < p->played)
        play(&alone);
    return memcmp(&alone.table, &p->table, sizeof alone.table) == 0 && memcmp(alone.log, p->log, sizeof alone.log) == 0
        && alone.heard == p->heard;
}

static void tables_in_turn(void)
{
    struct player one = new_player(1), other = new_player(2);
    for (int i = 0; i < TURNS; i++) {
        play(&one);
        play(&other);
    }
    expect(as_alone(&one, 1) && as_alone(&other, 2), "two tables in turn do not know of each other");
    printf("promises: two tables and their logs in turn, %d events each: as if alone\n", TURNS);
}

static void *play_on(void *player)
{
    for (int i = 0; i < TURNS; i++)
        play(player);
    return 0;
}

static void tables_at_once(void)
{
    struct player one = new_player(5), other = new_player(6);
    pthread_t thread;
    expect(pthread_create(&thread, 0, play_on, &other) == 0, "a thread can be started");
    play_on(&one);
    expect(pthread_join(thread, 0) == 0, "a thread ends");
    expect(as_alone(&one, 5) && as_alone(&other, 6), "two tables may be used at once");
    printf("promises: two tables and their logs at once, by two threads, %d events each: as if alone\n", TURNS);
}

static struct player interrupter;
static volatile sig_atomic_t interrupted;

/* The system keeps the xmm registers and the red zone of what it interrupts, as the header asks for. The stack that it hands over is aligned,
   but under some versions of qemu it is not; hence the attribute. */
__attribute__((force_align_arg_pointer)) static void on_interrupt(int signal)
{
    (void)signal;
    sig_atomic_t inside = in_a_call;
    play(&interrupter);
    in_a_call = inside;
    interrupted += inside;
}

static void set_timer(long microseconds)
{
    struct itimerval every = { { 0, microseconds }, { 0, microseconds } };
    expect(setitimer(ITIMER_REAL, &every, 0) == 0, "a timer can be set");
}

static void tables_in_interrupts(void)
{
    struct player one = new_player(3);
    struct sigaction action = { .sa_handler = on_interrupt, .sa_flags = SA_RESTART };
    time_t latest = time(0) + PATIENCE;
    interrupter = new_player(4);
    expect(sigaction(SIGALRM, &action, 0) == 0, "a handler can be set");
    set_timer(1000);
    while (interrupted < INTERRUPTS && time(0) < latest)
        play(&one);
    set_timer(0);
    expect(interrupted >= INTERRUPTS, "calls were interrupted often enough");
    expect(as_alone(&one, 3) && as_alone(&interrupter, 4), "a call on one table may be interrupted by calls on another");
    printf("promises: another table and its log in an interrupt, %d times in the midst of calls: as if alone\n", (int)interrupted);
}

int main(void)
{
    setvbuf(stdout, 0, _IOLBF, BUFSIZ);
    signal(SIGSEGV, on_fault);
    refused_steps_store();
    refused_spares_store();
    queries_only_read();
    clock_runs_out();
    tables_drain();
    tables_begin_anew();
    running_holds();
    totals_are_counted();
    refused_logs_only_read();
    logs_touch_one_block();
    logs_keep_what_is_accepted();
    logs_come_to_their_end();
    logs_move();
    changes_are_noticed();
    logs_are_only_read();
    lengths_come_first();
    buffers_are_cut();
    longest_log_is_read();
    shipments_start();
    tasks_come_back();
    draw_is_first();
    shipments_are_logged();
    tables_in_turn();
    tables_at_once();
    tables_in_interrupts();
    return 0;
}
