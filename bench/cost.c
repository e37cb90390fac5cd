/* What the calls cost: runs the same events through the library and the C versions, each kind of event by a function of its own, so that
   `count` can tell the kinds apart. It prints nothing but a line on what it ran; the figures are count's. */
#include <stdio.h>
#include <stdlib.h>
#include <string.h>
#include "draw.h"
#include "model.h"
#include "trial.h"

static const char usage[] =
    "cost vector FILE       the records of a file, from the empty table\n"
    "cost live N EVENTS     a busy history with N live threads, of accepted events only\n"
    "cost chain ORDER GAP   sixteen holders in one chain, ids `rising` or `falling` from its end to who joins; requests at the far end,\n"
    "                       growing to 32 live threads, then every release; a thread is created when the clock is a multiple of GAP\n"
    "cost crowd             one thread holds all, 31 others wait at one resource, then the releases\n"
    "cost chains N GAP      N tables of 32 live threads with sixteen holders in one chain, in any order of ids, the others waiting\n"
    "                       anywhere, set times GAP apart; a request at the far end, then the release at the near one\n"
    "cost trial FILE        the event on the table that the file has (bench/trial.h)\n"
    "cost made EVENTS       one event on each of many made tables with up to 32 live threads, most of them waiting\n"
    "cost log FROM TO       the log: in some blocks, the calls that find FROM records there, FROM + 1 and so on to TO, at most 124\n"
    "cost refused N         the log: in these blocks, the calls that find N records there, one byte of them changed\n"
    "cost replay N HOW      a log of one full block, its records a busy history with N live threads from the empty table on: `whole` reads it\n"
    "                       back, `changed` after one byte of its records was changed, `stepped` makes the steps instead\n"
    "cost terminal WHAT     on the table of a shipment that has just started: `start` starts it anew; `added` is a spare task without a\n"
    "                       priority, `added_at` one with it, `created` the same by a step, `outside` is refused with 17, `live` with 6\n"
    "N, EVENTS and GAP are at least 1.\n";

enum kind { CREATE, EXIT, SET, P_FREE, P_TAKEN, V_LAST, V_HEIR, REFUSED, KINDS };
typedef struct locktable_answer step(struct locktable *, struct locktable_record);

/* One version, and its table: aligned, because memcpy's count depends on where its ends lie. */
struct side {
    const char *name;
    step *steps[KINDS];
    void (*empty)(struct locktable *);
    struct locktable_running_answer (*running)(const struct locktable *);
    struct locktable_thread_answer (*thread)(const struct locktable *, uint8_t);
    struct locktable_resource_answer (*resource)(const struct locktable *, uint8_t);
    uint8_t (*log)(uint8_t *, size_t, uint32_t, struct locktable_record);
    struct locktable_replayed (*replay)(const uint8_t *, size_t);
    struct locktable_answer (*start)(struct locktable *);
    struct locktable_answer (*spare)(struct locktable *, uint8_t);
    struct locktable_answer (*spare_at)(struct locktable *, uint8_t, uint8_t);
    _Alignas(64) struct locktable table;
};

/* Each is one jump; the report takes it off again. */
#define STEP(NAME, CALLS, KIND)                                                                                            \
    step NAME##_##KIND;                                                                                                    \
    __attribute__((noinline)) struct locktable_answer NAME##_##KIND(struct locktable *t, struct locktable_record e)        \
    {                                                                                                                      \
        return CALLS##_step(t, e);                                                                                         \
    }
#define STEPS(NAME, CALLS)                                                                                                 \
    STEP(NAME, CALLS, create) STEP(NAME, CALLS, exit) STEP(NAME, CALLS, set) STEP(NAME, CALLS, p_free)                     \
    STEP(NAME, CALLS, p_taken) STEP(NAME, CALLS, v_last) STEP(NAME, CALLS, v_heir) STEP(NAME, CALLS, refused)
#define SIDE(NAME, CALLS, TERMINAL)                                                                                        \
    { .name = #NAME,                                                                                                       \
      .steps = { NAME##_create, NAME##_exit, NAME##_set, NAME##_p_free,                                                    \
                 NAME##_p_taken, NAME##_v_last, NAME##_v_heir, NAME##_refused },                                           \
      .empty = CALLS##_empty, .running = CALLS##_running, .thread = CALLS##_thread, .resource = CALLS##_resource,          \
      .log = CALLS##_log, .replay = CALLS##_replay,                                                                        \
      .start = TERMINAL##_start, .spare = TERMINAL##_spare, .spare_at = TERMINAL##_spare_at }

STEPS(ours, locktable)
STEPS(fast, fast)
STEPS(best, best)
STEPS(nosse, nosse)

/* The library is first. */
static struct side sides[] = {
    SIDE(ours, locktable, terminal), SIDE(fast, fast, fast_terminal), SIDE(best, best, best_terminal), SIDE(nosse, nosse, nosse_terminal),
};
enum { SIDES = sizeof sides / sizeof sides[0] };
static struct locktable *const ours = &sides[0].table;
static unsigned runs = LOCKTABLE_NOBODY, calls;

/* What the event will be, by the model on a copy. */
static enum kind kind_of(struct locktable_record e)
{
    struct locktable copy = *ours;
    if (model_step(&copy, e).number != LOCKTABLE_ACCEPTED)
        return REFUSED;
    switch (e.kind) {
    case LOCKTABLE_CREATE: return CREATE;
    case LOCKTABLE_EXIT: return EXIT;
    case LOCKTABLE_SET: return SET;
    case LOCKTABLE_P: return ours->length[e.argument] == 0 ? P_FREE : P_TAKEN;
    default: return ours->length[e.argument] == 1 ? V_LAST : V_HEIR;
    }
}

/* What a side answers to an event, and to the queries after it. */
struct outcome {
    uint8_t number, running, count, asked_running, waits_for, holder;
    uint16_t requests, releases;
};

static struct outcome run(struct side *s, enum kind kind, struct locktable_record e)
{
    struct locktable_answer a = s->steps[kind](&s->table, e);
    struct locktable_running_answer x = s->running(&s->table);
    struct locktable_thread_answer y = s->thread(&s->table, e.thread);
    struct locktable_resource_answer z = s->resource(&s->table, e.argument);
    return (struct outcome){ a.number, a.running, a.count, x.running, y.waits_for, z.holder, y.requests, y.releases };
}

/* One event on all tables, and the queries after it. */
static void act(struct locktable_record e)
{
    enum kind kind = kind_of(e);
    struct outcome want = run(&sides[0], kind, e);
    for (int i = 1; i < SIDES; i++) {
        struct outcome got = run(&sides[i], kind, e);
        if (memcmp(&want, &got, sizeof want) != 0 || memcmp(ours, &sides[i].table, sizeof *ours) != 0) {
            fprintf(stderr, "cost: %s differs from ours at call %u\n", sides[i].name, calls + 1);
            exit(1);
        }
    }
    runs = want.running;
    calls++;
}

/* All tables become as ours is. */
static void share(void)
{
    for (int i = 1; i < SIDES; i++)
        sides[i].table = *ours;
}

static void event(unsigned kind, unsigned thread, unsigned argument)
{
    act((struct locktable_record){ (uint8_t)kind, (uint8_t)thread, (uint8_t)argument, 0 });
}

static int vector(const char *path)
{
    FILE *f = fopen(path, "rb");
    uint8_t b[4];
    if (f == 0) {
        perror(path);
        return 2;
    }
    while (fread(b, 1, 4, f) == 4)
        act((struct locktable_record){ b[0], b[1], b[2], b[3] });
    fclose(f);
    return 0;
}

/* A refused event changes nothing, so that many of them would hide what the others cost. */
static struct locktable_record draw_accepted(struct dice *d, const struct mood *m)
{
    struct locktable_record e;
    do
        e = draw_busy_record(d, m, ours, runs);
    while (kind_of(e) == REFUSED);
    return e;
}

static struct mood busy(unsigned threads)
{
    return (struct mood){ threads, threads < LOCKTABLE_RESOURCES ? threads : LOCKTABLE_RESOURCES, 256, 0 };
}

/* Threads are live first, then the events count: the Creates on the way there are few. */
static int live(unsigned threads, unsigned events)
{
    struct mood m = busy(threads);
    struct dice d = { mix(threads) };
    for (unsigned i = 0; i < threads; i++) {
        struct locktable_record e = draw_busy_record(&d, &m, ours, runs);
        runs = model_step(ours, e).running;
    }
    share();
    while (calls < events)
        act(draw_accepted(&d, &m));
    return 0;
}

/* The running thread gives back what it holds and exits, until nobody is left. */
static void drain(void)
{
    while (runs != LOCKTABLE_NOBODY) {
        unsigned thread = runs;
        for (unsigned r = 0; r < LOCKTABLE_RESOURCES && runs == thread; r++)
            if (ours->length[r] > 0 && ours->queue[LOCKTABLE_THREADS * r] == thread)
                event(LOCKTABLE_V, thread, r);
        if (runs == thread)
            event(LOCKTABLE_EXIT, thread, 0);
    }
}

/* The clock goes on to a multiple of the gap, as it would by events that leave nothing behind: a Create, perhaps a Set, and an Exit. */
static void turn_clock(unsigned gap)
{
    ours->clock = (uint16_t)((ours->clock + gap - 1) / gap * gap);
    share();
}

/* Sixteen threads hold a resource each and all but the first wait for the one before; the others wait for the last. Each is the highest so far,
   so its request raises all who hold. */
static int chain(bool falling, unsigned gap)
{
    for (unsigned i = 0; i < LOCKTABLE_THREADS; i++) {
        unsigned thread = falling ? LAST_THREAD - i : i;
        turn_clock(gap);
        event(LOCKTABLE_CREATE, thread, 10 + i);
        if (i < LOCKTABLE_RESOURCES)
            event(LOCKTABLE_P, thread, i);
        if (i > 0)
            event(LOCKTABLE_P, thread, i < LOCKTABLE_RESOURCES ? i - 1 : LAST_RESOURCE);
    }
    drain();
    return 0;
}

static int crowd(void)
{
    event(LOCKTABLE_CREATE, 0, 0);
    for (unsigned r = 0; r < LOCKTABLE_RESOURCES; r++)
        event(LOCKTABLE_P, 0, r);
    for (unsigned i = 1; i < LOCKTABLE_THREADS; i++) {
        event(LOCKTABLE_CREATE, i, 100 + i);
        event(LOCKTABLE_P, i, 0);
    }
    event(LOCKTABLE_SET, 0, 0);
    drain();
    return 0;
}

/* The step alone, so that its test whether the table is sound is the only one. */
static int trial(const char *path)
{
    struct trial s;
    if (!read_trial(path, &s))
        return 2;
    *ours = s.table;
    share();
    enum kind kind = kind_of(s.record);
    for (int i = 0; i < SIDES; i++) {
        sides[i].steps[kind](&sides[i].table, s.record);
        if (memcmp(ours, &sides[i].table, sizeof *ours) != 0) {
            fprintf(stderr, "cost: %s differs from ours\n", sides[i].name);
            return 1;
        }
    }
    calls++;
    return 0;
}

static int made(unsigned events)
{
    struct mood m = { LOCKTABLE_THREADS, LOCKTABLE_RESOURCES, 256, 0 };
    struct dice d = { 1 };
    while (calls < events) {
        make_table(&d, &m, ours);
        share();
        if (model_sound(ours))
            act(draw_record(&d, &m, ours, model_running(ours).running));
    }
    return 0;
}

static int chains(unsigned tables, unsigned gap)
{
    struct dice d = { 1 };
    struct chain c;
    while (tables-- > 0) {
        make_chain(&d, LOCKTABLE_RESOURCES, 100, gap, ours, &c);
        share();
        event(LOCKTABLE_P, c.thread[LAST_THREAD], c.resource[LAST_RESOURCE]);
        event(LOCKTABLE_V, c.thread[0], c.resource[0]);
    }
    return 0;
}

/* A log for each side, aligned as the tables are. */
_Alignas(64) static uint8_t logs[SIDES][LOCKTABLE_LOG_SIZE];

static uint8_t *block_of(int side, uint32_t so_far) { return logs[side] + LOCKTABLE_BLOCK * (so_far / LOCKTABLE_BLOCK_RECORDS); }

/* The same record in all logs. */
static void log_record(uint32_t so_far, struct locktable_record e, uint8_t number)
{
    for (int i = 0; i < SIDES; i++) {
        uint8_t got = sides[i].log(logs[i], sizeof logs[i], so_far, e);
        if (got != number || memcmp(block_of(0, so_far), block_of(i, so_far), LOCKTABLE_BLOCK) != 0) {
            fprintf(stderr, "cost: the log of %s is not as it should be at call %u\n", sides[i].name, calls + 1);
            exit(1);
        }
    }
    calls++;
}

/* The block that takes the next record, in all logs. A number is added to a byte in the midst of its records. */
static void start_block(struct dice *d, uint32_t so_far, unsigned added)
{
    uint8_t *block = block_of(0, so_far);
    make_block(d, logs[0], so_far);
    block[8 + so_far % LOCKTABLE_BLOCK_RECORDS * 2] += (uint8_t)added;
    for (int i = 1; i < SIDES; i++)
        memcpy(block_of(i, so_far), block, LOCKTABLE_BLOCK);
}

/* The first blocks, and others whose numbers take two bytes: so many records are before them. */
static const uint32_t blocks[] = { 0, LOCKTABLE_BLOCK_RECORDS, 261 * LOCKTABLE_BLOCK_RECORDS, 523 * LOCKTABLE_BLOCK_RECORDS };
enum { BLOCKS = sizeof blocks / sizeof blocks[0], LAST_PLACE = LOCKTABLE_BLOCK_RECORDS - 1 };

static int log_blocks(unsigned from, unsigned to)
{
    struct dice d = { 1 };
    for (int i = 0; i < BLOCKS; i++) {
        start_block(&d, blocks[i] + from, 0);
        for (unsigned place = from; place <= to; place++)
            log_record(blocks[i] + place, draw_any_record(&d), LOCKTABLE_ACCEPTED);
    }
    return 0;
}

/* Only the check tells that a byte of a record has changed: no refusal comes later. */
static int log_refused(unsigned records)
{
    struct dice d = { 1 };
    for (int i = 0; i < BLOCKS; i++) {
        start_block(&d, blocks[i] + records, 1);
        log_record(blocks[i] + records, draw_any_record(&d), LOCKTABLE_LOG_NOT_AS_SAID);
    }
    return 0;
}

/* A busy history, as long as a block: its records in all logs. The tables are empty afterwards. */
static void write_block(unsigned threads)
{
    struct mood m = busy(threads);
    struct dice d = { mix(threads) };
    for (uint32_t n = 0; n < LOCKTABLE_BLOCK_RECORDS; n++) {
        struct locktable_record e = draw_accepted(&d, &m);
        runs = model_step(ours, e).running;
        for (int i = 0; i < SIDES; i++)
            model_log(logs[i], sizeof logs[i], n, e);
    }
    model_empty(ours);
    share();
    runs = LOCKTABLE_NOBODY;
}

/* The block read back by all sides: the number and the records that are to come of it. */
static int read_block(uint8_t number, uint16_t records)
{
    for (int i = 0; i < SIDES; i++) {
        _Alignas(64) struct locktable_replayed r = sides[i].replay(logs[i], LOCKTABLE_BLOCK);
        sides[i].table = r.table;
        if (r.number != number || r.records != records || memcmp(ours, &sides[i].table, sizeof *ours) != 0) {
            fprintf(stderr, "cost: %s does not read the log as it should\n", sides[i].name);
            return 1;
        }
    }
    calls++;
    return 0;
}

static int replay(unsigned threads, const char *how)
{
    write_block(threads);
    if (strcmp(how, "whole") == 0)
        return read_block(LOCKTABLE_ACCEPTED, LOCKTABLE_BLOCK_RECORDS);
    if (strcmp(how, "changed") == 0) {
        for (int i = 0; i < SIDES; i++)
            logs[i][LOCKTABLE_BLOCK / 2]++;
        return read_block(LOCKTABLE_LOG_NOT_AS_SAID, 0);
    }
    for (const uint8_t *at = logs[0] + 8; at < logs[0] + 8 + 4 * LOCKTABLE_BLOCK_RECORDS; at += 4)
        act((struct locktable_record){ at[0], at[1], at[2], at[3] });
    return 0;
}

static bool is_way_to_read(const char *word)
{
    return strcmp(word, "whole") == 0 || strcmp(word, "changed") == 0 || strcmp(word, "stepped") == 0;
}

/* A call on the table of a shipment, for the task of this id. */
typedef struct locktable_answer task_call(struct side *s, uint8_t id);
enum { PRIORITY = 40 };

static struct locktable_answer start(struct side *s, uint8_t id)
{
    (void)id;
    return s->start(&s->table);
}

static struct locktable_answer spare(struct side *s, uint8_t id) { return s->spare(&s->table, id); }

static struct locktable_answer spare_at(struct side *s, uint8_t id) { return s->spare_at(&s->table, id, PRIORITY); }

static struct locktable_answer create(struct side *s, uint8_t id)
{
    return s->steps[CREATE](&s->table, (struct locktable_record){ LOCKTABLE_CREATE, id, PRIORITY, 0 });
}

/* What is called, for sixteen ids from the first on, and the number that answers it. */
struct task { const char *what; task_call *call; uint8_t first, number; };
static const struct task tasks[] = {
    { "start", start, 0, LOCKTABLE_ACCEPTED },
    { "added", spare, TERMINAL_FIRST_SPARE, LOCKTABLE_ACCEPTED },
    { "added_at", spare_at, TERMINAL_FIRST_SPARE, LOCKTABLE_ACCEPTED },
    { "created", create, TERMINAL_FIRST_SPARE, LOCKTABLE_ACCEPTED },
    { "outside", spare_at, 0, TERMINAL_NOT_SPARE },
    { "live", spare_at, TERMINAL_FIRST_SPARE, LOCKTABLE_ALREADY_LIVE },
};

static const struct task *task_named(const char *what)
{
    for (size_t i = 0; i < sizeof tasks / sizeof tasks[0]; i++)
        if (strcmp(tasks[i].what, what) == 0)
            return &tasks[i];
    return 0;
}

/* The call on all tables, which are as ours is. */
static void call_task(const struct task *task, uint8_t id)
{
    share();
    for (int i = 0; i < SIDES; i++) {
        struct locktable_answer a = task->call(&sides[i], id);
        if (a.number != task->number || memcmp(ours, &sides[i].table, sizeof *ours) != 0) {
            fprintf(stderr, "cost: %s is not as it should be at call %u\n", sides[i].name, calls + 1);
            exit(1);
        }
    }
    calls++;
}

static int terminal(const struct task *task)
{
    for (unsigned i = 0; i < TERMINAL_TASKS; i++) {
        uint8_t id = (uint8_t)(task->first + i);
        model_terminal_start(ours);
        if (task->number == LOCKTABLE_ALREADY_LIVE)
            model_terminal_spare(ours, id);
        call_task(task, id);
    }
    return 0;
}

/* The number from 1 to the most, or 0 if the word is not one. */
static unsigned number(const char *word, unsigned most)
{
    char *end;
    unsigned long n = strtoul(word, &end, 10);
    return *end == 0 && n <= most ? (unsigned)n : 0;
}

/* A place in a block, which may be 0. */
static bool is_place(const char *word) { return strcmp(word, "0") == 0 || number(word, LAST_PLACE) > 0; }

/* The history that the words name; 2 if they name none. A clock has 65,535 events, and 32 threads 2,000 apart fit in that. */
static int history(int words, char **word)
{
    const char *name = words > 0 ? word[0] : "";
    unsigned n = words > 1 ? number(word[1], 60000) : 0, gap = words > 2 ? number(word[2], 2000) : 0;
    bool falling = words > 1 && strcmp(word[1], "falling") == 0, rising = words > 1 && strcmp(word[1], "rising") == 0;
    if (words == 2 && strcmp(name, "vector") == 0)
        return vector(word[1]);
    if (words == 2 && strcmp(name, "trial") == 0)
        return trial(word[1]);
    if (words == 3 && strcmp(name, "live") == 0 && n > 0 && n <= LOCKTABLE_THREADS && number(word[2], 60000) > 0)
        return live(n, number(word[2], 60000));
    if (words == 3 && strcmp(name, "chain") == 0 && (falling || rising) && gap > 0)
        return chain(falling, gap);
    if (words == 1 && strcmp(name, "crowd") == 0)
        return crowd();
    if (words == 3 && strcmp(name, "chains") == 0 && n > 0 && gap > 0)
        return chains(n, gap);
    if (words == 2 && strcmp(name, "made") == 0 && n > 0)
        return made(n);
    if (words == 3 && strcmp(name, "log") == 0 && is_place(word[1]) && is_place(word[2]) && atoi(word[1]) <= atoi(word[2]))
        return log_blocks((unsigned)atoi(word[1]), (unsigned)atoi(word[2]));
    if (words == 2 && strcmp(name, "refused") == 0 && n > 0 && n <= LAST_PLACE)
        return log_refused(n);
    if (words == 3 && strcmp(name, "replay") == 0 && n > 0 && n <= LOCKTABLE_THREADS && is_way_to_read(word[2]))
        return replay(n, word[2]);
    if (words == 2 && strcmp(name, "terminal") == 0 && task_named(word[1]) != 0)
        return terminal(task_named(word[1]));
    fputs(usage, stderr);
    return 2;
}

/* memcpy's count depends on where its ends lie. So the stack of all calls begins at a page, wherever the program's words put it. */
int main(int argc, char **argv)
{
    _Alignas(4096) volatile char page = 0;
    (void)page;
    for (int i = 0; i < SIDES; i++)
        sides[i].empty(&sides[i].table);
    int status = history(argc - 1, argv + 1);
    if (status == 0)
        printf("%u calls\n", calls);
    return status;
}
