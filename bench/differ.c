/* The differential test: the library, fast.c, best.c and the model get the same tables, logs, records and spare tasks by chance. After every
   call the answers and all bytes of the tables and logs must be equal.
     differ [--seed N] [--tests N] [--only N]       tests 1 to N of a seed (6,000 of a fresh one), or only test N
     differ --drill model|fast|best|library FILE..  the listing of each file of records, by one side
     differ --keep model|fast|best|library FILE..   the log of the accepted ones of each, by one side
     differ --read model|fast|best|library FILE..   the listing of each log, by one side */
#include <errno.h>
#include <stdio.h>
#include <stdlib.h>
#include <string.h>
#include <time.h>
#include "draw.h"
#include "model.h"

/* Kinds: 0, the five of the header, and all beyond. A count is at most the number of resources: a chain has so many holders. */
enum { NUMBERS = LOCKTABLE_STILL_HOLDS + 1, OTHER_KINDS = LOCKTABLE_V + 1, KINDS, COUNTS = LOCKTABLE_RESOURCES + 1, ANSWER = 8 };
enum call { STEP, EMPTY, RUNNING, THREAD, RESOURCE, START, SPARE, SPARE_AT, LOG, REPLAY, CALLS };
static const char *const call_names[CALLS] = {
    "step", "empty", "running", "thread", "resource", "terminal_start", "terminal_spare", "terminal_spare_at", "log", "replay",
};
/* What a log call comes to; 0 stands here twice. And the rules of a block that goes on, or is read back: a bit each in the model's set. */
enum outcome { FRESH, GOES_ON, RUN_OUT, TOO_SHORT, NOT_AS_SAID, OUTCOMES };
static const char *const outcome_names[OUTCOMES] = { "0 fresh", "0 going on", "5", "13", "14" };
enum { RULES = 5 };
static const char *const rule_names[RULES] = { "number", "count", "spare bytes", "unused records", "check" };
/* What a log that is read back comes to: how it ends if it is read fully, why it is refused and in which block; and where a refusal goes
   before others that would come later. Which number an event has is counted apart. */
enum read {
    NO_BYTES, FULL_LAST, SHORT_LAST, NO_MULTIPLE, TOO_LONG, NOT_GOOD_FIRST, NOT_GOOD_LATER, NOT_FULL_FIRST, NOT_FULL_LATER,
    FIRST_OF_FIRST, INNER_OF_FIRST, LAST_OF_FIRST, FIRST_OF_LATER, INNER_OF_LATER, LAST_OF_LATER,
    LENGTH_FIRST, NOT_GOOD_BEFORE_NOT_FULL, NOT_FULL_BEFORE_EVENT, EVENT_BEFORE_NOT_GOOD, READS
};
static const char *const read_names[READS] = {
    "0 for no bytes", "0 with a full last block", "0 with a short last block", "15 for no multiple of 512", "15 for more than 525 blocks",
    "14 in the first block", "14 in a later block", "16 in the first block", "16 in a later block",
    "an event's number at the first block's first record", "an event's number within the first block",
    "an event's number at the first block's last record", "an event's number at a later block's first record",
    "an event's number within a later block", "an event's number at a later block's last record",
    "15 where the first block isn't good", "14 where 16 would come too", "16 where an event would be refused",
    "an event's number where the next block isn't good",
};
/* What can be wrong with the totals of a table: a bit each in the model's set. */
enum { WRONGS = 3 };
static const char *const wrong_names[WRONGS] = { "out of balance", "above the clock", "not zero in a dead slot" };
/* On which tables a shipment is started. */
enum started { UNSOUND, UNUSED, IN_USE, STARTS };
static const char *const started_names[STARTS] = { "an unsound table", "the empty table", "a table in use" };
/* What has to come of adding a spare task: the answers, and where a refusal goes before others that apply too. */
enum spare {
    UNSOUND_FIXED, UNSOUND_BEYOND, UNSOUND_SPARE, FIXED, FIXED_LAST, FIXED_LIVE, FIXED_AT_END, BEYOND_FIRST, BEYOND, BEYOND_AT_END,
    AT_END, AT_END_LIVE, LIVE, ADDED_FIRST, ADDED, ADDED_LAST, SPARES
};
static const char *const spare_names[SPARES] = {
    "1 for an id below 16", "1 for an id above 31", "1 for a spare id", "17 for an id below 15", "17 for id 15", "17 for a live fixed task",
    "17 for an id below 16 at the last clock", "17 for id 32", "17 for an id above 32", "17 for an id above 31 at the last clock",
    "5", "5 for a live spare task", "6", "0 for id 16", "0 for an id between", "0 for id 31",
};

struct side {
    const char *name;
    struct locktable_answer (*step)(struct locktable *, struct locktable_record);
    void (*empty)(struct locktable *);
    struct locktable_running_answer (*running)(const struct locktable *);
    struct locktable_thread_answer (*thread)(const struct locktable *, uint8_t);
    struct locktable_resource_answer (*resource)(const struct locktable *, uint8_t);
    uint8_t (*log)(uint8_t *, size_t, uint32_t, struct locktable_record);
    struct locktable_replayed (*replay)(const uint8_t *, size_t);
    struct locktable_answer (*start)(struct locktable *);
    struct locktable_answer (*spare)(struct locktable *, uint8_t);
    struct locktable_answer (*spare_at)(struct locktable *, uint8_t, uint8_t);
};

#define SIDE(NAME, CALLS, TERMINAL)                                                                                        \
    { NAME, CALLS##_step, CALLS##_empty, CALLS##_running, CALLS##_thread, CALLS##_resource, CALLS##_log, CALLS##_replay,   \
      TERMINAL##_start, TERMINAL##_spare, TERMINAL##_spare_at }

/* The model is first: it decides. */
static const struct side sides[] = {
    SIDE("model", model, model_terminal),
    SIDE("fast", fast, fast_terminal),
    SIDE("best", best, best_terminal),
    SIDE("library", locktable, terminal),
};
enum { SIDES = sizeof sides / sizeof sides[0] };

static struct {
    unsigned long long seed, test, event;
    unsigned long long calls[CALLS], steps[KINDS][NUMBERS], counts[COUNTS], damaged[2], broken[2], made[2]; /* unsound, sound */
    unsigned long long wrong_alone[WRONGS], at_clock; /* tables unsound by one wrong of totals, sound with a total equal to the clock */
    unsigned long long outcomes[OUTCOMES], alone[RULES], several, places[LOCKTABLE_BLOCK_RECORDS]; /* of log calls */
    unsigned long long reads[READS], read_alone[RULES], read_events[NUMBERS]; /* of logs read back */
    unsigned long long starts[STARTS], spares[2][SPARES]; /* without a priority, with one */
    unsigned long long circles[LOCKTABLE_RESOURCES + 1], led_back[LOCKTABLE_RESOURCES + 1]; /* by their holders */
    unsigned long long carried[LOCKTABLE_RESOURCES], runs_on, by_time; /* of V: note_heir */
} run;

/* Mixed twice, so that runs of neighbouring seeds have no test in common. */
static unsigned long long seed_of(unsigned long long n) { return mix(mix(run.seed) + n); }

/* The step, or a call of the terminal's. A spare task has the record's thread as its id, and the argument as its priority if it is to have
   one. */
static struct locktable_answer act(const struct side *s, enum call call, struct locktable *t, struct locktable_record e)
{
    switch (call) {
    case START: return s->start(t);
    case SPARE: return s->spare(t, e.thread);
    case SPARE_AT: return s->spare_at(t, e.thread, e.argument);
    default: return s->step(t, e);
    }
}

/* One call of one side, its answer as numbers, so that padding is not compared. The queries get the record's thread byte. */
static void ask(const struct side *s, enum call call, struct locktable *t, struct locktable_record e, unsigned answer[ANSWER])
{
    memset(answer, 0, ANSWER * sizeof answer[0]);
    if (call == EMPTY) {
        s->empty(t);
    } else if (call == RUNNING) {
        struct locktable_running_answer a = s->running(t);
        answer[0] = a.number, answer[1] = a.running;
    } else if (call == THREAD) {
        struct locktable_thread_answer a = s->thread(t, e.thread);
        answer[0] = a.number, answer[1] = a.priority, answer[2] = a.time;
        answer[3] = a.current_priority, answer[4] = a.current_time, answer[5] = a.waits_for;
        answer[6] = a.requests, answer[7] = a.releases;
    } else if (call == RESOURCE) {
        struct locktable_resource_answer a = s->resource(t, e.thread);
        answer[0] = a.number, answer[1] = a.holder, answer[2] = a.waiters;
    } else {
        struct locktable_answer a = act(s, call, t, e);
        answer[0] = a.number, answer[1] = a.running, answer[2] = a.count;
    }
}

static void print_answer(const char *name, const unsigned answer[ANSWER])
{
    printf("  %-8s answers", name);
    for (int i = 0; i < ANSWER; i++)
        printf(" %u", answer[i]);
    printf("\n");
}

static void print_bytes(const char *title, const void *bytes, size_t n)
{
    printf("  %s", title);
    for (size_t i = 0; i < n; i++)
        printf("%s%02x", i % 64 == 0 ? "\n    " : "", ((const uint8_t *)bytes)[i]);
    printf("\n");
}

_Noreturn static void fail(const struct side *s, enum call call, const struct locktable *given, struct locktable_record e,
                           unsigned answers[2][ANSWER], const struct locktable after[2])
{
    const uint8_t *want = (const uint8_t *)&after[0], *got = (const uint8_t *)&after[1];
    printf("FAILED: %s differs from the model. seed %llu, test %llu, event %llu\n", s->name, run.seed, run.test, run.event);
    printf("  call %s, record %u %u %u %u\n", call_names[call], e.kind, e.thread, e.argument, e.zero);
    print_answer("model", answers[0]);
    print_answer(s->name, answers[1]);
    for (size_t i = 0; i < sizeof *given; i++)
        if (want[i] != got[i])
            printf("  byte %zu of the table: model %u, %s %u\n", i, want[i], s->name, got[i]);
    print_bytes("the table given:", given, sizeof *given);
    printf("  repeat it with bench/run --seed %llu --only %llu\n", run.seed, run.test);
    exit(1);
}

/* Of those who wait the one who is highest by these priorities and times. */
static unsigned highest_waiter(const struct locktable *t, unsigned resource, const uint8_t *priority, const uint16_t *time)
{
    const uint8_t *queue = t->queue + LOCKTABLE_THREADS * resource;
    unsigned best = queue[1];
    for (unsigned i = 2; i < t->length[resource]; i++)
        if (priority[queue[i]] > priority[best] || (priority[queue[i]] == priority[best] && time[queue[i]] < time[best]))
            best = queue[i];
    return best;
}

/* From the thread whose own precedence is this one's current precedence up to this one: how many holders there are on the way,
   this one included. Set times differ, so they tell who that is. */
static unsigned holders_up_to(const struct locktable *t, unsigned thread)
{
    unsigned at = 0, holders = 0;
    while (!t->live[at] || t->time[at] != t->current_time[thread])
        at++;
    for (; at != thread; holders++)
        at = model_resource(t, model_thread(t, (uint8_t)at).waits_for).holder;
    return holders;
}

/* Counts an accepted V if the waiter of highest current precedence, the heir, is not the one of highest own precedence: by the
   holders through whom the heir has its urgency. Of these also the ones after which the releaser runs on, and the ones where
   of equal current priorities the own times would choose another. */
static void note_heir(const struct locktable *t, struct locktable_record e, unsigned running)
{
    unsigned heir = highest_waiter(t, e.argument, t->current_priority, t->current_time);
    if (heir == highest_waiter(t, e.argument, t->priority, t->time))
        return;
    run.carried[holders_up_to(t, heir)]++;
    run.runs_on += running == e.thread;
    run.by_time += heir != highest_waiter(t, e.argument, t->current_priority, t->time);
}

/* All sides on copies of one table; the model's result stays in `t` and `answer`. */
static void compare(enum call call, struct locktable *t, struct locktable_record e, unsigned answer[ANSWER])
{
    struct locktable given = *t, after[2];
    unsigned answers[2][ANSWER];
    after[0] = given;
    ask(&sides[0], call, &after[0], e, answers[0]);
    for (int i = 1; i < SIDES; i++) {
        after[1] = given;
        ask(&sides[i], call, &after[1], e, answers[1]);
        if (memcmp(answers[0], answers[1], sizeof answers[0]) != 0 || memcmp(&after[0], &after[1], sizeof after[0]) != 0)
            fail(&sides[i], call, &given, e, answers, after);
    }
    *t = after[0];
    memcpy(answer, answers[0], sizeof answers[0]);
    run.calls[call]++;
    if (call == STEP) {
        run.steps[e.kind < OTHER_KINDS ? e.kind : OTHER_KINDS][answer[0]]++;
        if (answer[0] == LOCKTABLE_ACCEPTED)
            run.counts[answer[2]]++;
        if (answer[0] == LOCKTABLE_ACCEPTED && e.kind == LOCKTABLE_V && given.length[e.argument] > 1)
            note_heir(&given, e, answer[1]);
    }
}

static void compare_query(enum call call, struct locktable *t, unsigned argument)
{
    unsigned answer[ANSWER];
    compare(call, t, (struct locktable_record){ 0, (uint8_t)argument, 0, 0 }, answer);
}

static void compare_some_queries(struct dice *d, struct locktable *t)
{
    compare_query(RUNNING, t, 0);
    compare_query(THREAD, t, roll(d, 8) == 0 ? roll(d, 256) : roll(d, LOCKTABLE_THREADS + 1));
    compare_query(RESOURCE, t, roll(d, 8) == 0 ? roll(d, 256) : roll(d, LOCKTABLE_RESOURCES + 1));
}

static void compare_all_queries(struct locktable *t)
{
    compare_query(RUNNING, t, 0);
    for (unsigned i = 0; i <= LOCKTABLE_THREADS + 1; i++)
        compare_query(THREAD, t, i);
    for (unsigned i = 0; i <= LOCKTABLE_RESOURCES + 1; i++)
        compare_query(RESOURCE, t, i);
}

static void compare_start(struct locktable *t, unsigned answer[ANSWER])
{
    run.starts[!model_sound(t) ? UNSOUND : t->clock == 0 ? UNUSED : IN_USE]++;
    compare(START, t, (struct locktable_record){ 0, 0, 0, 0 }, answer);
}

/* Counts what came of adding a spare task to this table. */
static void note_spare(enum call call, const struct locktable *t, unsigned id, unsigned number)
{
    enum { FIRST = TERMINAL_FIRST_SPARE, LAST = TERMINAL_LAST_SPARE, OTHER = TERMINAL_NOT_SPARE };
    bool fixed = id < FIRST, beyond = id > LAST, at_end = t->clock == LOCKTABLE_EVENTS, live = !beyond && t->live[id] != 0;
    const bool came[SPARES] = {
        [UNSOUND_FIXED] = number == LOCKTABLE_NOT_SOUND && fixed,
        [UNSOUND_BEYOND] = number == LOCKTABLE_NOT_SOUND && beyond,
        [UNSOUND_SPARE] = number == LOCKTABLE_NOT_SOUND && !fixed && !beyond,
        [FIXED] = number == OTHER && id < FIRST - 1,
        [FIXED_LAST] = number == OTHER && id == FIRST - 1,
        [FIXED_LIVE] = number == OTHER && fixed && live,
        [FIXED_AT_END] = number == OTHER && fixed && at_end,
        [BEYOND_FIRST] = number == OTHER && id == LAST + 1,
        [BEYOND] = number == OTHER && id > LAST + 1,
        [BEYOND_AT_END] = number == OTHER && beyond && at_end,
        [AT_END] = number == LOCKTABLE_CLOCK_RUN_OUT,
        [AT_END_LIVE] = number == LOCKTABLE_CLOCK_RUN_OUT && live,
        [LIVE] = number == LOCKTABLE_ALREADY_LIVE,
        [ADDED_FIRST] = number == LOCKTABLE_ACCEPTED && id == FIRST,
        [ADDED] = number == LOCKTABLE_ACCEPTED && id > FIRST && id < LAST,
        [ADDED_LAST] = number == LOCKTABLE_ACCEPTED && id == LAST,
    };
    for (int i = 0; i < SPARES; i++)
        run.spares[call == SPARE_AT][i] += came[i];
}

static void compare_spare(struct dice *d, const struct mood *m, struct locktable *t, unsigned answer[ANSWER])
{
    struct locktable before = *t;
    struct locktable_record e = draw_spare(d, m);
    enum call call = roll(d, 2) == 0 ? SPARE : SPARE_AT;
    compare(call, t, e, answer);
    note_spare(call, &before, e.thread, answer[0]);
}

/* A spare task, and once in a while a start. */
static void compare_terminal(struct dice *d, const struct mood *m, struct locktable *t, unsigned answer[ANSWER])
{
    if (roll(d, 100) == 0)
        compare_start(t, answer);
    else
        compare_spare(d, m, t, answer);
}

/* Counts what came up of totals, in a table that breaks these rules. A total may be as high as the clock. */
static void note_totals(const struct locktable *t, unsigned broken)
{
    bool at_clock = false;
    for (int i = 0; i < LOCKTABLE_THREADS; i++)
        at_clock |= t->live[i] && t->requests[i] == t->clock;
    run.at_clock += broken == 0 && at_clock;
    for (int i = 0; i < WRONGS; i++)
        run.wrong_alone[i] += broken == 1u << i;
}

/* A record, a call of the terminal's and the queries on a table that stands alone; tells whether it was sound. In one that isn't nobody
   runs, so any thread may be meant: each kind of event must be refused there. */
static bool compare_lone(struct dice *d, const struct mood *m, struct locktable t)
{
    unsigned broken = model_broken_totals(&t), answer[ANSWER];
    bool sound = broken == 0;
    unsigned acting = sound ? model_running(&t).running : roll(d, LOCKTABLE_THREADS);
    struct locktable same = t;
    note_totals(&t, broken);
    compare_some_queries(d, &t);
    compare_terminal(d, m, &same, answer);
    compare(STEP, &t, draw_record(d, m, &t, acting), answer);
    return sound;
}

static void compare_damaged(struct dice *d, const struct mood *m, struct locktable t)
{
    struct locktable bytes = t;
    damage(d, &bytes);
    run.damaged[compare_lone(d, m, bytes)]++;
    break_a_rule(d, &t);
    run.broken[compare_lone(d, m, t)]++;
}

static void history(struct dice *d, const struct mood *m, struct locktable *t, unsigned events)
{
    unsigned answer[ANSWER] = { 0, model_running(t).running };
    for (run.event = 1; run.event <= events; run.event++) {
        if (roll(d, 8) == 0)
            compare_terminal(d, m, t, answer);
        else
            compare(STEP, t, draw_record(d, m, t, answer[1]), answer);
        if (roll(d, 4) == 0)
            compare_some_queries(d, t);
        if (roll(d, 2) == 0)
            compare_damaged(d, m, *t);
    }
}

/* At the end of a chain the first thread runs, and each way in it leads there: a request of its own for a resource in it is refused. The
   same table with a request of that kind in it, a circle, is unsound. */
static void compare_led_back(struct dice *d, const struct mood *m, const struct chain *c, unsigned length, struct locktable t)
{
    unsigned threads = 1 + roll(d, length), answer[ANSWER];
    compare(STEP, &t, (struct locktable_record){ LOCKTABLE_P, c->thread[0], c->resource[threads - 1], 0 }, answer);
    run.led_back[threads] += answer[0] == LOCKTABLE_CIRCLE;
    if (threads > 1) {
        close_circle(d, c, threads, &t);
        run.circles[threads] += !compare_lone(d, m, t);
    }
}

/* A chain of holders and a request in it, every second time at its far end: by chance alone the walk is seldom longer than two. One chain in
   four is as long as there are resources, so that the highest count comes up often. */
static void start_with_chain(struct dice *d, const struct mood *m, struct locktable *t)
{
    unsigned length = roll(d, 4) == 0 ? LOCKTABLE_RESOURCES : 1 + roll(d, LOCKTABLE_RESOURCES), answer[ANSWER];
    unsigned waiting_percent = roll(d, 2) == 0 ? 100 : 30, gap = roll(d, 2) == 0 ? 1 : 1 + roll(d, 100);
    unsigned at = roll(d, 2) == 0 ? length - 1 : roll(d, length);
    struct chain c;
    make_chain(d, length, waiting_percent, gap, t, &c);
    compare(STEP, t, (struct locktable_record){ LOCKTABLE_P, c.thread[LAST_THREAD], c.resource[at], 0 }, answer);
    compare_led_back(d, m, &c, length, *t);
}

/* A shipment, on a table of any kind or on the empty one. All ids may come then. */
static void start_shipment(struct dice *d, struct mood *m, struct locktable *t)
{
    unsigned answer[ANSWER];
    if (roll(d, 2) == 0)
        compare_query(EMPTY, t, 0);
    compare_start(t, answer);
    m->threads = LOCKTABLE_THREADS;
}

/* One table in two starts empty or as a shipment does, one in four is a chain, one in four a made one if it is sound. */
static void start(struct dice *d, struct mood *m, struct locktable *t)
{
    unsigned which = roll(d, 4);
    make_table(d, m, t);
    run.made[compare_lone(d, m, *t)]++;
    if (which == 0) {
        start_with_chain(d, m, t);
        m->threads = LOCKTABLE_THREADS;
        m->resources = LOCKTABLE_RESOURCES;
    } else if (which > 1 || !model_sound(t)) {
        fill_with_noise(d, t); /* so that there is something to clear */
        if (roll(d, 4) == 0)
            start_shipment(d, m, t);
        else
            compare_query(EMPTY, t, 0);
    }
    if (roll(d, 8) == 0)
        t->clock = (uint16_t)(LOCKTABLE_EVENTS - roll(d, 40));
}

/* Each side writes its log in a room of its own. A log begins at any address in there, not only where the processor likes it, and has
   bytes around it that nobody may touch. The rooms are equal to `given`, so far as they are in use, but for the time of a call. */
enum { EDGE = 64, ROOM = EDGE + LOCKTABLE_LOG_SIZE + LOCKTABLE_BLOCK + EDGE };
static uint8_t rooms[SIDES][ROOM], given[ROOM];
static size_t in_use;

/* A call of the log: where it begins in a room, and the arguments. */
struct log_call {
    size_t begins, size;
    uint32_t so_far;
    struct locktable_record record;
};

static size_t start_of_block(uint32_t so_far) { return (size_t)(so_far / LOCKTABLE_BLOCK_RECORDS) * LOCKTABLE_BLOCK; }

/* The block that takes the record, or null if there is none: then the call is refused before it looks. */
static uint8_t *block_of(const struct log_call *c, uint8_t room[ROOM])
{
    bool there = c->so_far < LOCKTABLE_EVENTS && start_of_block(c->so_far) + LOCKTABLE_BLOCK <= c->size;
    return there ? room + c->begins + start_of_block(c->so_far) : 0;
}

/* Bytes in all rooms, beginning where they do in `given`. */
static void share(const uint8_t *at, size_t n)
{
    for (int i = 0; i < SIDES; i++)
        memcpy(rooms[i] + (at - given), at, n);
}

_Noreturn static void fail_log(int side, const struct log_call *c, const uint8_t answers[SIDES])
{
    const uint8_t *want = side == 0 ? given : rooms[0], *block = block_of(c, given);
    const char *name = sides[side].name, *other = side == 0 ? "given" : "model";
    const char *words = side == 0 ? "writes where it should not" : "differs from the model";
    printf("FAILED: %s %s. seed %llu, test %llu, log call %llu\n", name, words, run.seed, run.test, run.event);
    printf("  call log, so_far %lu, size %zu, ", (unsigned long)c->so_far, c->size);
    printf("record %u %u %u %u\n", c->record.kind, c->record.thread, c->record.argument, c->record.zero);
    printf("  model    answers %u\n", answers[0]);
    if (side > 0)
        printf("  %-8s answers %u\n", name, answers[side]);
    for (size_t i = 0, shown = 0; i < in_use && shown < LOCKTABLE_BLOCK; i++)
        if (want[i] != rooms[side][i] && ++shown)
            printf("  byte %td of the buffer: %s %u, %s %u\n", (ptrdiff_t)(i - c->begins), other, want[i], name, rooms[side][i]);
    if (block != 0)
        print_bytes("the block given:", block, LOCKTABLE_BLOCK);
    printf("  repeat it with bench/run --seed %llu --only %llu\n", run.seed, run.test);
    exit(1);
}

/* Whether the model has changed nothing but that block, and not even that if it refuses. */
static bool model_keeps_to_its_block(const struct log_call *c, uint8_t answer)
{
    const uint8_t *block = block_of(c, rooms[0]);
    if (answer != LOCKTABLE_ACCEPTED)
        return memcmp(rooms[0], given, in_use) == 0;
    size_t before = (size_t)(block - rooms[0]), behind = before + LOCKTABLE_BLOCK;
    return memcmp(rooms[0], given, before) == 0 && memcmp(rooms[0] + behind, given + behind, in_use - behind) == 0;
}

/* Counts what came up. */
static void note_outcome(const struct log_call *c, uint8_t answer)
{
    unsigned place = c->so_far % LOCKTABLE_BLOCK_RECORDS;
    run.calls[LOG]++;
    switch (answer) {
    case LOCKTABLE_ACCEPTED: run.places[place]++; run.outcomes[place == 0 ? FRESH : GOES_ON]++; return;
    case LOCKTABLE_CLOCK_RUN_OUT: run.outcomes[RUN_OUT]++; return;
    case LOCKTABLE_LOG_TOO_SHORT: run.outcomes[TOO_SHORT]++; return;
    default: run.outcomes[NOT_AS_SAID]++; break;
    }
    unsigned broken = model_broken_rules(block_of(c, given), c->so_far), alone = 0;
    for (int i = 0; i < RULES; i++)
        if (broken == 1u << i)
            run.alone[i]++, alone = 1;
    run.several += !alone;
}

/* All sides on rooms that are equal. What they write stays if the log is to go on; otherwise the rooms are as before. */
static uint8_t compare_log(const struct log_call *c, bool stays)
{
    uint8_t answers[SIDES];
    run.event++;
    for (int i = 0; i < SIDES; i++)
        answers[i] = sides[i].log(rooms[i] + c->begins, c->size, c->so_far, c->record);
    if (!model_keeps_to_its_block(c, answers[0]))
        fail_log(0, c, answers);
    for (int i = 1; i < SIDES; i++)
        if (answers[i] != answers[0] || memcmp(rooms[i], rooms[0], in_use) != 0)
            fail_log(i, c, answers);
    note_outcome(c, answers[0]);
    if (answers[0] != LOCKTABLE_ACCEPTED)
        return answers[0];
    if (stays)
        memcpy(block_of(c, given), block_of(c, rooms[0]), LOCKTABLE_BLOCK);
    else
        share(block_of(c, given), LOCKTABLE_BLOCK);
    return answers[0];
}

/* A size from which the block is missing, or a part of it, often only the last byte. */
static size_t short_size(struct dice *d, uint32_t so_far)
{
    size_t start = start_of_block(so_far);
    switch (roll(d, 4)) {
    case 0: return start + LOCKTABLE_BLOCK - 1;
    case 1: return start;
    case 2: return start + roll(d, LOCKTABLE_BLOCK);
    default: return roll(d, (unsigned)start + 1);
    }
}

/* 65,535 and what is above it, to the last number that there is. */
static uint32_t late_so_far(struct dice *d)
{
    switch (roll(d, 4)) {
    case 0: return LOCKTABLE_EVENTS;
    case 1: return UINT32_MAX - roll(d, 2);
    case 2: return LOCKTABLE_EVENTS + roll(d, LOCKTABLE_BLOCK_RECORDS);
    default: return LOCKTABLE_EVENTS + roll(d, UINT32_MAX - LOCKTABLE_EVENTS);
    }
}

/* Another number of records than the log has: a few more or less, some blocks more or less, or any. */
static uint32_t wrong_so_far(struct dice *d, uint32_t so_far)
{
    uint32_t by = 1 + roll(d, 3);
    switch (roll(d, 5)) {
    case 0: return so_far + by;
    case 1: return so_far - by;
    case 2: return so_far + by * LOCKTABLE_BLOCK_RECORDS;
    case 3: return so_far - by * LOCKTABLE_BLOCK_RECORDS;
    default: return roll(d, LOCKTABLE_EVENTS);
    }
}

/* The call on a block that is not as the log left it, by damage or by noise. */
static void compare_damaged_log(struct dice *d, const struct log_call *c)
{
    uint8_t *block = block_of(c, given), kept[LOCKTABLE_BLOCK];
    unsigned before = c->so_far % LOCKTABLE_BLOCK_RECORDS;
    memcpy(kept, block, sizeof kept);
    if (before == 0 || roll(d, 16) == 0)
        draw_bytes(d, block, LOCKTABLE_BLOCK);
    else
        damage_block(d, block, before);
    share(block, LOCKTABLE_BLOCK);
    compare_log(c, false);
    memcpy(block, kept, sizeof kept);
    share(block, LOCKTABLE_BLOCK);
}

/* One call that leaves the log as it is. The log given is right, and so is the call, but for one thing at most. */
static void compare_log_once(struct dice *d, struct log_call c)
{
    c.record = draw_any_record(d);
    switch (roll(d, 8)) {
    case 0: compare_log(&c, false); break;
    case 1: c.size = short_size(d, c.so_far); compare_log(&c, false); break;
    case 2: c.so_far = late_so_far(d); c.size = roll(d, (unsigned)c.size + 1); compare_log(&c, false); break;
    case 3: c.so_far = wrong_so_far(d, c.so_far); compare_log(&c, false); break;
    default: compare_damaged_log(d, &c); break;
    }
}

/* A log with so many records, of which only the block that takes the next one need be there. Every second time the buffer ends with that
   block, and every fourth with the next one. */
static struct log_call start_log(struct dice *d)
{
    struct log_call c = { .begins = 1 + roll(d, EDGE), .so_far = draw_so_far(d) };
    c.size = start_of_block(c.so_far) + LOCKTABLE_BLOCK;
    switch (roll(d, 4)) {
    case 0: c.size += roll(d, LOCKTABLE_BLOCK); break;
    case 1: c.size += LOCKTABLE_BLOCK; break;
    default: break;
    }
    in_use = c.begins + c.size + EDGE;
    draw_bytes(d, given, in_use);
    make_block(d, given + c.begins, c.so_far);
    share(given, in_use);
    return c;
}

/* Single calls first; then the log goes on, at times into the next block, to its buffer's end or to the last record. */
static void logs(struct dice *d)
{
    struct log_call c = start_log(d);
    run.event = 0;
    for (unsigned left = 1 + roll(d, 24); left > 0; left--)
        compare_log_once(d, c);
    for (unsigned left = 1 + roll(d, roll(d, 4) == 0 ? 200 : 3); left > 0; left--) {
        c.record = draw_any_record(d);
        if (compare_log(&c, true) != LOCKTABLE_ACCEPTED)
            break;
        c.so_far++;
    }
}

/* Logs that are read back lie in `given`, at any address, with bytes around them. All sides read the same one, and `rooms[0]` keeps what it
   was. */
static bool log_stays(void) { return memcmp(given, rooms[0], in_use) == 0; }

static bool same_reading(const struct locktable_replayed *a, const struct locktable_replayed *b)
{
    return a->number == b->number && a->records == b->records && memcmp(&a->table, &b->table, sizeof a->table) == 0;
}

static void print_reading(const char *name, const struct locktable_replayed *r)
{
    printf("  %-8s answers %u after %u records\n", name, r->number, r->records);
}

/* The block shown is the one at which the model stopped. */
_Noreturn static void fail_reading(const struct side *s, const struct locktable_replayed *want, const struct locktable_replayed *got,
                                   const uint8_t *log, size_t size)
{
    const uint8_t *a = (const uint8_t *)&want->table, *b = (const uint8_t *)&got->table;
    size_t block = want->records / LOCKTABLE_BLOCK_RECORDS * LOCKTABLE_BLOCK;
    printf("FAILED: %s %s. seed %llu, test %llu, log read %llu\n", s->name,
           log_stays() ? "differs from the model" : "writes where it should only read", run.seed, run.test, run.event);
    printf("  call replay, size %zu\n", size);
    print_reading("model", want);
    print_reading(s->name, got);
    for (size_t i = 0; i < sizeof want->table; i++)
        if (a[i] != b[i])
            printf("  byte %zu of the table: model %u, %s %u\n", i, a[i], s->name, b[i]);
    if (block + LOCKTABLE_BLOCK <= size)
        print_bytes("the block at which the model stops:", log + block, LOCKTABLE_BLOCK);
    if (run.test > 0)
        printf("  repeat it with bench/run --seed %llu --only %llu\n", run.seed, run.test);
    exit(1);
}

static unsigned count_of(const uint8_t *block) { return block[4] + 256u * block[5]; }

static struct locktable_record record_at(const uint8_t *log, uint32_t n)
{
    const uint8_t *at = log + LOCKTABLE_BLOCK * (n / LOCKTABLE_BLOCK_RECORDS) + 8 + 4 * (n % LOCKTABLE_BLOCK_RECORDS);
    return (struct locktable_record){ at[0], at[1], at[2], at[3] };
}

static bool good_at(const uint8_t *log, size_t blocks, size_t place)
{
    return place < blocks && model_broken_goodness(log + LOCKTABLE_BLOCK * place, (uint32_t)place) == 0;
}

/* Counts why a block was refused as a whole, and what it was refused before. */
static void note_block(const struct locktable_replayed *r, const uint8_t *log, size_t blocks)
{
    size_t place = r->records / LOCKTABLE_BLOCK_RECORDS;
    const uint8_t *block = log + LOCKTABLE_BLOCK * place;
    unsigned broken = model_broken_goodness(block, (uint32_t)place);
    struct locktable t = r->table;
    if (broken == 0) {
        run.reads[place == 0 ? NOT_FULL_FIRST : NOT_FULL_LATER]++;
        run.reads[NOT_FULL_BEFORE_EVENT] += model_step(&t, record_at(log, r->records)).number != LOCKTABLE_ACCEPTED;
        return;
    }
    run.reads[place == 0 ? NOT_GOOD_FIRST : NOT_GOOD_LATER]++;
    run.reads[NOT_GOOD_BEFORE_NOT_FULL] += place + 1 < blocks && count_of(block) < LOCKTABLE_BLOCK_RECORDS;
    for (int i = 0; i < RULES; i++)
        run.read_alone[i] += broken == 1u << i;
}

/* Counts where an event was refused. */
static void note_event(const struct locktable_replayed *r, const uint8_t *log, size_t blocks)
{
    size_t place = r->records / LOCKTABLE_BLOCK_RECORDS;
    unsigned at = r->records % LOCKTABLE_BLOCK_RECORDS, last = count_of(log + LOCKTABLE_BLOCK * place) - 1;
    enum read first = place == 0 ? FIRST_OF_FIRST : FIRST_OF_LATER, inner = place == 0 ? INNER_OF_FIRST : INNER_OF_LATER;
    run.read_events[r->number]++;
    run.reads[first] += at == 0;
    run.reads[inner] += at > 0 && at < last;
    run.reads[place == 0 ? LAST_OF_FIRST : LAST_OF_LATER] += at == last;
    run.reads[EVENT_BEFORE_NOT_GOOD] += place + 1 < blocks && !good_at(log, blocks, place + 1);
}

/* Counts what came up. */
static void note_reading(const struct locktable_replayed *r, const uint8_t *log, size_t size)
{
    size_t blocks = size / LOCKTABLE_BLOCK;
    run.calls[REPLAY]++;
    switch (r->number) {
    case LOCKTABLE_ACCEPTED:
        run.reads[size == 0 ? NO_BYTES : r->records % LOCKTABLE_BLOCK_RECORDS == 0 ? FULL_LAST : SHORT_LAST]++;
        return;
    case LOCKTABLE_LOG_LENGTH:
        run.reads[size > LOCKTABLE_LOG_SIZE ? TOO_LONG : NO_MULTIPLE]++;
        run.reads[LENGTH_FIRST] += blocks > 0 && !good_at(log, blocks, 0);
        return;
    case LOCKTABLE_LOG_NOT_AS_SAID: case LOCKTABLE_BLOCK_NOT_FULL: note_block(r, log, blocks); return;
    default: note_event(r, log, blocks); return;
    }
}

/* All sides on the log that begins there in `given`. */
static struct locktable_replayed compare_reading(size_t begins, size_t size)
{
    const uint8_t *log = given + begins;
    run.event++;
    in_use = begins + size + EDGE;
    memcpy(rooms[0], given, in_use);
    struct locktable_replayed want = sides[0].replay(log, size);
    for (int i = 0; i < SIDES; i++) {
        struct locktable_replayed got = i == 0 ? want : sides[i].replay(log, size);
        if (!log_stays() || !same_reading(&want, &got))
            fail_reading(&sides[i], &want, &got, log, size);
    }
    note_reading(&want, log, size);
    return want;
}

/* A log as it was written, and then harmed ones, every fourth of them twice. */
static void readings(struct dice *d)
{
    enum { ROOM_FOR_A_LOG = 8 * LOCKTABLE_BLOCK };
    static uint8_t card[ROOM_FOR_A_LOG];
    struct drawn_log drawn;
    size_t begins = 1 + roll(d, EDGE), size;
    run.event = 0;
    draw_bytes(d, card, sizeof card);
    draw_log(d, card, &drawn);
    for (unsigned left = 1 + roll(d, 8), harms = 0; left > 0; left--, harms = roll(d, 4) == 0 ? 2 : 1) {
        size = (size_t)LOCKTABLE_LOG_BLOCKS(drawn.records) * LOCKTABLE_BLOCK;
        memcpy(given + begins, card, sizeof card);
        for (unsigned i = 0; i < harms; i++)
            size = harm_log(d, given + begins, &drawn, size);
        compare_reading(begins, size);
    }
}

/* A record of the longest log: a thread that takes a resource, gives it back, and sets itself, again and again. */
static struct locktable_record long_record(uint32_t n)
{
    static const uint8_t kinds[] = { LOCKTABLE_SET, LOCKTABLE_P, LOCKTABLE_V };
    return (struct locktable_record){ n == 0 ? LOCKTABLE_CREATE : kinds[n % 3], 3, (uint8_t)(n / 3 % LOCKTABLE_RESOURCES), 0 };
}

/* The log of 65,535 records, and the same with one more, which the log's call would not take: only that is refused with 5. No seed is
   needed to repeat this, since every run begins with it. */
static void longest_readings(void)
{
    uint8_t *last = given + LOCKTABLE_LOG_SIZE - LOCKTABLE_BLOCK + EDGE;
    unsigned records = LOCKTABLE_EVENTS % LOCKTABLE_BLOCK_RECORDS;
    run.event = 0;
    for (uint32_t n = 0; n < LOCKTABLE_EVENTS; n++)
        model_log(given + EDGE, LOCKTABLE_LOG_SIZE, n, long_record(n));
    struct locktable_replayed a = compare_reading(EDGE, LOCKTABLE_LOG_SIZE);
    struct locktable_record one_more = long_record(LOCKTABLE_EVENTS);
    memcpy(last + 8 + 4 * records, &one_more, sizeof one_more);
    last[4]++;
    uint32_t check = model_check(last);
    memcpy(last + LOCKTABLE_BLOCK - sizeof check, &check, sizeof check);
    struct locktable_replayed b = compare_reading(EDGE, LOCKTABLE_LOG_SIZE);
    if (a.number == LOCKTABLE_ACCEPTED && a.records == LOCKTABLE_EVENTS && b.number == LOCKTABLE_CLOCK_RUN_OUT)
        return;
    printf("FAILED: the longest log is answered with %u, and with one record more with %u\n", a.number, b.number);
    exit(1);
}

/* Test number n: one history, with damaged tables on the way; then noise; then a log; and every eighth time logs that are read back, since
   the model takes its time for them. */
static void test(unsigned long long n)
{
    struct dice d = { seed_of(n) };
    struct mood m = draw_mood(&d);
    struct locktable t;
    run.test = n;
    run.event = 0;
    start(&d, &m, &t);
    history(&d, &m, &t, 1 + roll(&d, 120));
    compare_all_queries(&t);
    fill_with_noise(&d, &t);
    compare_lone(&d, &m, t);
    logs(&d);
    if (roll(&d, 8) == 0)
        readings(&d);
}

static void print_terminal_totals(void)
{
    printf("terminal_start on");
    for (int i = 0; i < STARTS; i++)
        printf("%s %s: %llu", i > 0 ? "," : "", started_names[i], run.starts[i]);
    printf("\n%-42s %10s %10s\n", "spare tasks by what came of them", "without", "with");
    for (int i = 0; i < SPARES; i++)
        printf("%-42s %10llu %10llu\n", spare_names[i], run.spares[0][i], run.spares[1][i]);
}

static void print_log_totals(void)
{
    unsigned places = 0;
    printf("log calls by answer:");
    for (int i = 0; i < OUTCOMES; i++)
        printf("%s %s: %llu", i > 0 ? "," : "", outcome_names[i], run.outcomes[i]);
    printf("\nblocks refused because of one thing:");
    for (int i = 0; i < RULES; i++)
        printf(" %s %llu,", rule_names[i], run.alone[i]);
    printf(" and of several: %llu\n", run.several);
    for (int i = 0; i < LOCKTABLE_BLOCK_RECORDS; i++)
        places += run.places[i] > 0;
    printf("places of a block where a record was accepted: %u of %d\n", places, LOCKTABLE_BLOCK_RECORDS);
}

static void print_reading_totals(void)
{
    printf("%-52s %10s\n", "logs read back by what came of them", "");
    for (int i = 0; i < READS; i++)
        printf("%-52s %10llu\n", read_names[i], run.reads[i]);
    printf("events refused in them, by number, from 0:");
    for (int i = 0; i < NUMBERS; i++)
        printf(" %llu", run.read_events[i]);
    printf("\nblocks in them that aren't good because of one thing:");
    for (int i = 0; i < RULES; i++)
        printf("%s %s %llu", i > 0 ? "," : "", rule_names[i], run.read_alone[i]);
    printf("\n");
}

static void print_totals(void)
{
    static const char *const kinds[KINDS] = { "kind 0", "Create", "Exit", "Set", "P", "V", "kind 6 up" };
    printf("steps by kind and refusal:\n%-10s", "");
    for (int k = 0; k < NUMBERS; k++)
        printf(" %8d", k);
    printf("\n");
    for (int i = 0; i < KINDS; i++) {
        printf("%-10s", kinds[i]);
        for (int k = 0; k < NUMBERS; k++)
            printf(" %8llu", run.steps[i][k]);
        printf("\n");
    }
    printf("accepted steps by count, from 0:");
    for (int i = 0; i < COUNTS; i++)
        printf(" %llu", run.counts[i]);
    printf("\ncalls:");
    for (int i = 0; i < CALLS; i++)
        printf(" %s %llu", call_names[i], run.calls[i]);
    printf("\ntables with 1 to 4 bytes changed: %llu unsound, %llu still sound\n", run.damaged[0], run.damaged[1]);
    printf("tables with at most one rule broken: %llu unsound, %llu still sound\n", run.broken[0], run.broken[1]);
    printf("made tables: %llu unsound, %llu sound\n", run.made[0], run.made[1]);
    printf("tables unsound only because totals are");
    for (int i = 0; i < WRONGS; i++)
        printf("%s %s: %llu", i > 0 ? "," : "", wrong_names[i], run.wrong_alone[i]);
    printf("; sound with one equal to the clock: %llu", run.at_clock);
    printf("\ntables unsound because of a circle, by its holders, from 2:");
    for (int i = 2; i <= LOCKTABLE_RESOURCES; i++)
        printf(" %llu", run.circles[i]);
    printf("\nsteps refused with %d, by the holders on the chain, from 1:", LOCKTABLE_CIRCLE);
    for (int i = 1; i <= LOCKTABLE_RESOURCES; i++)
        printf(" %llu", run.led_back[i]);
    printf("\nV that pass over the waiter of highest own precedence, by the holders up to the heir, from 1:");
    for (int i = 1; i < LOCKTABLE_RESOURCES; i++)
        printf(" %llu", run.carried[i]);
    printf("; the releaser runs on: %llu, the current time decides: %llu\n", run.runs_on, run.by_time);
    print_terminal_totals();
    print_log_totals();
    print_reading_totals();
}

/* Of the log each answer, each thing that a block can be refused for, alone, and each place in a block. */
static bool all_met_in_logs(void)
{
    bool met = true;
    for (int i = 0; i < OUTCOMES; i++)
        if (run.outcomes[i] == 0)
            met = false, printf("FAILED: no log call was answered with %s\n", outcome_names[i]);
    for (int i = 0; i < RULES; i++)
        if (run.alone[i] == 0)
            met = false, printf("FAILED: no block was refused because of its %s alone\n", rule_names[i]);
    for (int i = 0; i < LOCKTABLE_BLOCK_RECORDS; i++)
        if (run.places[i] == 0)
            met = false, printf("FAILED: no record was accepted at place %d of a block\n", i);
    return met;
}

/* Of logs read back each way to end, each number of an event but 1, which never comes, and each thing that a block can lack, alone. */
static bool all_met_in_readings(void)
{
    bool met = true;
    for (int i = 0; i < READS; i++)
        if (run.reads[i] == 0)
            met = false, printf("FAILED: no log that was read back came to %s\n", read_names[i]);
    for (int i = LOCKTABLE_NO_SUCH_KIND; i < NUMBERS; i++)
        if (run.read_events[i] == 0)
            met = false, printf("FAILED: no log that was read back stopped at an event with %d\n", i);
    for (int i = 0; i < RULES; i++)
        if (run.read_alone[i] == 0)
            met = false, printf("FAILED: no block that was read back was refused because of its %s alone\n", rule_names[i]);
    return met;
}

/* Of the totals each thing that can be wrong, alone, and the most that is sound. */
static bool all_met_in_totals(void)
{
    bool met = true;
    for (int i = 0; i < WRONGS; i++)
        if (run.wrong_alone[i] == 0)
            met = false, printf("FAILED: no table was unsound only because a total was %s\n", wrong_names[i]);
    if (run.at_clock == 0)
        met = false, printf("FAILED: no sound table had a total equal to the clock\n");
    return met;
}

/* Of circles and of chains that lead back to the requester each length. */
static bool all_met_in_circles(void)
{
    bool met = true;
    for (int i = 1; i <= LOCKTABLE_RESOURCES; i++) {
        if (run.led_back[i] == 0)
            met = false, printf("FAILED: no step was refused because of a chain of %d holders\n", i);
        if (i > 1 && run.circles[i] == 0)
            met = false, printf("FAILED: no table was unsound because of a circle of %d holders\n", i);
    }
    return met;
}

/* Of V that pass over the waiter of highest own precedence each number of holders through whom the heir can have its urgency. */
static bool all_met_in_heirs(void)
{
    bool met = true;
    for (int i = 1; i < LOCKTABLE_RESOURCES; i++)
        if (run.carried[i] == 0)
            met = false, printf("FAILED: no V passed over the waiter of highest own precedence with %d holders up to the heir\n", i);
    if (run.runs_on == 0)
        met = false, printf("FAILED: no V passed over the waiter of highest own precedence and let the releaser run on\n");
    if (run.by_time == 0)
        met = false, printf("FAILED: no V passed over the waiter of highest own precedence by the time of a current one\n");
    return met;
}

/* Of the terminal's calls each kind of table for a start, and what can come of a spare task, without a priority and with one. */
static bool all_met_in_terminal(void)
{
    bool met = true;
    for (int i = 0; i < STARTS; i++)
        if (run.starts[i] == 0)
            met = false, printf("FAILED: no shipment was started on %s\n", started_names[i]);
    for (int with = 0; with < 2; with++)
        for (int i = 0; i < SPARES; i++)
            if (run.spares[with][i] == 0)
                met = false, printf("FAILED: no %s was answered with %s\n", call_names[with ? SPARE_AT : SPARE], spare_names[i]);
    return met;
}

/* A run that does not meet every refusal and every count, and an unsound table with every kind, tests less than it says. */
static bool all_met(void)
{
    bool met = true;
    for (int k = 0; k < NUMBERS; k++) {
        unsigned long long n = 0;
        for (int i = 0; i < KINDS; i++)
            n += run.steps[i][k];
        if (n == 0)
            met = false, printf("FAILED: no step was answered with %d\n", k);
    }
    for (int i = 0; i < COUNTS; i++)
        if (run.counts[i] == 0)
            met = false, printf("FAILED: no accepted step had the count %d\n", i);
    for (int i = 0; i < KINDS; i++)
        if (run.steps[i][LOCKTABLE_NOT_SOUND] == 0)
            met = false, printf("FAILED: no unsound table was given an event of kind %d\n", i);
    met &= all_met_in_totals();
    met &= all_met_in_circles();
    met &= all_met_in_heirs();
    met &= all_met_in_terminal();
    met &= all_met_in_readings();
    return all_met_in_logs() && met;
}

static int tests(unsigned long long from, unsigned long long to)
{
    time_t last = time(0);
    printf("seed %llu, tests %llu to %llu\n", run.seed, from, to);
    fflush(stdout);
    if (from != to)
        longest_readings();
    for (unsigned long long n = from; n <= to; n++) {
        test(n);
        if (time(0) >= last + 5) {
            last = time(0);
            fprintf(stderr, "  test %llu of %llu, %llu steps\n", n, to, run.calls[STEP]);
        }
    }
    print_totals();
    if (from != to && !all_met())
        return 1;
    printf("all answers, all tables and all logs equal\n");
    return 0;
}

static void print_line(unsigned n, struct locktable_answer a)
{
    if (a.running < LOCKTABLE_NOBODY)
        printf("%u %u %u %u\n", n, a.number, a.running, a.count);
    else
        printf("%u %u - %u\n", n, a.number, a.count);
}

/* The listing of lockdrill for one file, by one side. */
static int drill(const struct side *s, const char *path)
{
    FILE *f = fopen(path, "rb");
    struct locktable t;
    uint8_t b[4];
    size_t got;
    if (f == 0) {
        perror(path);
        return 2;
    }
    s->empty(&t);
    printf("n code run count\n");
    for (unsigned n = 1; (got = fread(b, 1, 4, f)) == 4; n++)
        print_line(n, s->step(&t, (struct locktable_record){ b[0], b[1], b[2], b[3] }));
    if (got > 0)
        printf("tail %zu\n", got);
    fclose(f);
    return 0;
}

/* What logkeep writes for one file, by one side. */
static int keep(const struct side *s, const char *path)
{
    static uint8_t log[LOCKTABLE_LOG_SIZE];
    FILE *f = fopen(path, "rb");
    struct locktable t;
    uint8_t b[4];
    if (f == 0) {
        perror(path);
        return 2;
    }
    s->empty(&t);
    while (fread(b, 1, 4, f) == 4) {
        struct locktable_record e = { b[0], b[1], b[2], b[3] };
        if (s->step(&t, e).number == LOCKTABLE_ACCEPTED && s->log(log, sizeof log, t.clock - 1u, e) != LOCKTABLE_ACCEPTED) {
            fprintf(stderr, "differ: the log of %s is refused\n", path);
            return 1;
        }
    }
    fclose(f);
    fwrite(log, LOCKTABLE_BLOCK, (size_t)LOCKTABLE_LOG_BLOCKS(t.clock), stdout);
    return 0;
}

/* The listing of logread for one file, by one side: so many lines as its replay has applied records, by its step, which has to lead to the
   same table. Longer logs than logread takes are answered as it answers them. */
static int read_back(const struct side *s, const char *path)
{
    enum { MOST = 128 * LOCKTABLE_BLOCK };
    static uint8_t log[MOST + 1];
    FILE *f = fopen(path, "rb");
    struct locktable stepped;
    struct locktable_replayed r = { .number = LOCKTABLE_LOG_LENGTH };
    if (f == 0) {
        perror(path);
        return 2;
    }
    size_t size = fread(log, 1, sizeof log, f);
    fclose(f);
    s->empty(&stepped);
    if (size <= MOST)
        r = s->replay(log, size);
    printf("n code run count\n");
    for (unsigned n = 1; n <= r.records; n++)
        print_line(n, s->step(&stepped, record_at(log, n - 1)));
    if (r.number != LOCKTABLE_ACCEPTED)
        printf("stop %u\n", r.number);
    if (memcmp(&r.table, &stepped, sizeof stepped) == 0)
        return 0;
    fprintf(stderr, "differ: the log %s leads to another table than its records do\n", path);
    return 1;
}

/* What one side does with each file. */
typedef int with_file(const struct side *s, const char *path);

static with_file *by_one_side(const char *option)
{
    return strcmp(option, "--drill") == 0 ? drill : strcmp(option, "--keep") == 0 ? keep : strcmp(option, "--read") == 0 ? read_back : 0;
}

static int each(with_file *does, const char *name, char **paths)
{
    for (int i = 0; i < SIDES; i++)
        if (strcmp(sides[i].name, name) == 0) {
            int status = 0;
            for (; status == 0 && *paths != 0; paths++)
                status = does(&sides[i], *paths);
            return status;
        }
    fprintf(stderr, "differ: no side %s\n", name);
    return 2;
}

/* The number after an option, or the end of the program: strtoull alone takes "abc" for 0 and "-1" for 2^64 - 1. */
static unsigned long long number(char **words)
{
    char *end = 0;
    errno = 0;
    unsigned long long n = words[1] == 0 ? 0 : strtoull(words[1], &end, 10);
    if (words[1] != 0 && words[1][0] >= '0' && words[1][0] <= '9' && *end == 0 && errno == 0)
        return n;
    if (words[1] == 0)
        fprintf(stderr, "differ: %s needs a number below 2^64\n", words[0]);
    else
        fprintf(stderr, "differ: %s needs a number below 2^64, not \"%s\"\n", words[0], words[1]);
    exit(2);
}

static int usage(FILE *to, int status)
{
    fprintf(to, "differ [--seed N] [--tests N] [--only N]\ndiffer --drill|--keep|--read model|fast|best|library FILE..\n");
    return status;
}

int main(int argc, char **argv)
{
    unsigned long long from = 1, to = 6000;
    run.seed = (unsigned long long)time(0);
    for (int i = 1; i < argc; i++) {
        if (by_one_side(argv[i]) != 0)
            return i + 1 < argc ? each(by_one_side(argv[i]), argv[i + 1], argv + i + 2) : usage(stderr, 2);
        if (strcmp(argv[i], "--seed") == 0)
            run.seed = number(argv + i++);
        else if (strcmp(argv[i], "--tests") == 0)
            to = number(argv + i++);
        else if (strcmp(argv[i], "--only") == 0)
            from = to = number(argv + i++);
        else if (strcmp(argv[i], "--help") == 0)
            return usage(stdout, 0);
        else {
            fprintf(stderr, "differ: no such option: %s\n", argv[i]);
            return usage(stderr, 2);
        }
    }
    return tests(from, to);
}
