/* Makes the trials among which bench/search.py looks for the one whose step costs the most, and runs them for `count` to count. A file of
   trials is their bytes, one after another. */
#include <stdio.h>
#include <stdlib.h>
#include <string.h>
#include "draw.h"
#include "model.h"
#include "trial.h"

static const char usage[] =
    "search draw SEED N          writes N trials by chance\n"
    "search climb SEED N FILE    writes N that differ from those of FILE by a few changes: the first from the first, and so on, round and round\n"
    "search tidy FILE            writes the first trial of FILE with the same order of precedences in small numbers\n"
    "search take TEXT            writes the trial that a text holds (bench/trial.h)\n"
    "search show FILE            prints the first trial of FILE as text\n"
    "search run ours|fast FILE   makes one step on each trial of FILE, by locktable_step or by fast_step\n";

/* Set times that are equal modulo MARKS share a mark: crates/slots/src/times.rt. */
enum { MARKS = 64, MOST_GAP = 2000, MOST_CHANGES = 4, MOST_CLIMBERS = 1024 };

static uint8_t *queue_of(struct locktable *t, unsigned resource) { return t->queue + LOCKTABLE_THREADS * resource; }

static unsigned any_thread(struct dice *d) { return roll(d, LOCKTABLE_THREADS); }

static unsigned any_resource(struct dice *d) { return roll(d, LOCKTABLE_RESOURCES); }

/* The changes. Any of them may leave an unsound table, which is then thrown away. Where C would leave the order of two rolls open they stand
   in two statements. */
typedef void change(struct dice *, struct trial *);

static void insert(struct locktable *t, unsigned resource, unsigned place, unsigned thread)
{
    uint8_t *queue = queue_of(t, resource);
    if (t->length[resource] == LOCKTABLE_THREADS)
        return;
    memmove(queue + place + 1, queue + place, t->length[resource] - place);
    queue[place] = (uint8_t)thread;
    t->length[resource]++;
}

/* Gives the thread that stood there. */
static unsigned take_out(struct locktable *t, unsigned resource, unsigned place)
{
    uint8_t *queue = queue_of(t, resource);
    unsigned thread = queue[place];
    t->length[resource]--;
    memmove(queue + place, queue + place + 1, t->length[resource] - place);
    queue[t->length[resource]] = 0;
    return thread;
}

static void add_entry(struct dice *d, struct trial *s)
{
    unsigned r = any_resource(d), thread = any_thread(d);
    insert(&s->table, r, roll(d, s->table.length[r] + 1u), thread);
}

static void drop_entry(struct dice *d, struct trial *s)
{
    unsigned r = any_resource(d);
    if (s->table.length[r] > 0)
        take_out(&s->table, r, roll(d, s->table.length[r]));
}

static void move_entry(struct dice *d, struct trial *s)
{
    struct locktable *t = &s->table;
    unsigned from = any_resource(d), to = any_resource(d);
    if (t->length[from] == 0)
        return;
    unsigned thread = take_out(t, from, roll(d, t->length[from]));
    insert(t, to, roll(d, t->length[to] + 1u), thread);
}

static void swap_bytes(uint8_t *a, uint8_t *b)
{
    uint8_t kept = *a;
    *a = *b;
    *b = kept;
}

/* In one queue or in two. */
static void swap_entries(struct dice *d, struct trial *s)
{
    struct locktable *t = &s->table;
    unsigned a = any_resource(d), b = roll(d, 2) == 0 ? a : any_resource(d);
    if (t->length[a] == 0 || t->length[b] == 0)
        return;
    unsigned place = roll(d, t->length[a]), other = roll(d, t->length[b]);
    swap_bytes(queue_of(t, a) + place, queue_of(t, b) + other);
}

static void new_holder(struct dice *d, struct trial *s)
{
    unsigned r = any_resource(d), thread = any_thread(d);
    if (s->table.length[r] > 0)
        queue_of(&s->table, r)[0] = (uint8_t)thread;
}

static unsigned other_of(unsigned x, unsigned a, unsigned b) { return x == a ? b : x == b ? a : x; }

static void swap_words(uint16_t *a, uint16_t *b)
{
    uint16_t kept = *a;
    *a = *b;
    *b = kept;
}

/* Two threads change ids, and nothing else. */
static void exchange_threads(struct locktable *t, unsigned a, unsigned b)
{
    swap_words(t->time + a, t->time + b);
    swap_words(t->requests + a, t->requests + b);
    swap_words(t->releases + a, t->releases + b);
    swap_bytes(t->live + a, t->live + b);
    swap_bytes(t->priority + a, t->priority + b);
    for (unsigned r = 0; r < LOCKTABLE_RESOURCES; r++)
        for (unsigned i = 0; i < t->length[r]; i++)
            queue_of(t, r)[i] = (uint8_t)other_of(queue_of(t, r)[i], a, b);
}

static void swap_threads(struct dice *d, struct trial *s)
{
    unsigned a = any_thread(d), b = any_thread(d);
    exchange_threads(&s->table, a, b);
}

/* One thread gets another id, and those in between move over by one. */
static void shift_thread(struct dice *d, struct trial *s)
{
    unsigned from = any_thread(d), to = any_thread(d);
    for (; from < to; from++)
        exchange_threads(&s->table, from, from + 1);
    for (; from > to; from--)
        exchange_threads(&s->table, from, from - 1);
}

static void swap_resources(struct dice *d, struct trial *s)
{
    unsigned a = any_resource(d), b = any_resource(d);
    for (unsigned i = 0; i < LOCKTABLE_THREADS; i++)
        swap_bytes(queue_of(&s->table, a) + i, queue_of(&s->table, b) + i);
    swap_bytes(s->table.length + a, s->table.length + b);
    if (s->record.kind >= LOCKTABLE_P)
        s->record.argument = (uint8_t)other_of(s->record.argument, a, b);
}

/* Any priority, or one at or beside another thread's. */
static void new_priority(struct dice *d, struct trial *s)
{
    unsigned thread = any_thread(d), near = s->table.priority[any_thread(d)] + roll(d, 3);
    if (s->table.live[thread])
        s->table.priority[thread] = (uint8_t)(roll(d, 2) == 0 ? near - 1 : roll(d, 256));
}

/* Any time, but most often one that shares a mark with many. */
static void set_time(struct dice *d, struct locktable *t, unsigned thread)
{
    unsigned time = roll(d, t->clock + 1u);
    t->time[thread] = (uint16_t)(roll(d, 4) == 0 ? time : time - time % MARKS);
}

static void new_time(struct dice *d, struct trial *s)
{
    unsigned thread = any_thread(d);
    if (s->table.live[thread])
        set_time(d, &s->table, thread);
}

static void new_clock(struct dice *d, struct trial *s) { s->table.clock = (uint16_t)roll(d, LOCKTABLE_EVENTS + 1); }

static void change_life(struct dice *d, struct trial *s)
{
    unsigned thread = any_thread(d);
    s->table.live[thread] ^= 1;
    s->table.priority[thread] = 0;
    s->table.time[thread] = 0;
    if (s->table.live[thread])
        set_time(d, &s->table, thread);
}

static const struct mood all = { LOCKTABLE_THREADS, LOCKTABLE_RESOURCES, 256, 2 };

static void new_record(struct dice *d, struct trial *s)
{
    s->record = draw_record(d, &all, &s->table, model_running(&s->table).running);
}

/* Those that lead on most often stand here more than once. */
static change *const changes[] = {
    move_entry, move_entry, move_entry, new_holder, new_holder, new_holder, swap_entries, swap_entries, shift_thread, shift_thread,
    swap_threads, swap_threads, new_priority, new_priority, swap_resources, add_entry, drop_entry, new_time, new_clock, change_life, new_record,
};
enum { CHANGES = sizeof changes / sizeof *changes };

/* A resource that the thread holds, if there is one: the first from `start` on, round and round. */
static unsigned held_from(const struct locktable *t, unsigned start, unsigned thread)
{
    for (unsigned i = 0; i < LOCKTABLE_RESOURCES; i++) {
        unsigned r = (start + i) % LOCKTABLE_RESOURCES;
        if (t->length[r] > 0 && t->queue[LOCKTABLE_THREADS * r] == thread)
            return r;
    }
    return start;
}

/* Puts right what depends on the rest: the current precedences, the totals, and that the record is one of the running thread, a V one of
   what it holds, since most refusals are cheap. False if the table is not sound, or nobody is live. */
static bool settle(struct trial *s)
{
    struct locktable_record *e = &s->record;
    model_set_currents(&s->table);
    model_set_totals(&s->table);
    unsigned runs = model_running(&s->table).running;
    if (runs == LOCKTABLE_NOBODY)
        return false;
    if (e->kind != LOCKTABLE_CREATE)
        e->thread = (uint8_t)runs;
    if (e->kind == LOCKTABLE_V)
        e->argument = (uint8_t)held_from(&s->table, e->argument % LOCKTABLE_RESOURCES, runs);
    return true;
}

/* Whether live thread a has a higher own precedence than live thread b. */
static bool higher(const struct locktable *t, unsigned a, unsigned b)
{
    return t->live[a] && t->live[b] && (t->priority[a] > t->priority[b] || (t->priority[a] == t->priority[b] && t->time[a] < t->time[b]));
}

/* The same order of own precedences in small numbers: priorities from 0 up, and set times by ids, which all share a mark. Nobody has
   released anything. */
static void tidy(struct locktable *t)
{
    uint8_t rank[LOCKTABLE_THREADS] = { 0 };
    for (unsigned a = 0; a < LOCKTABLE_THREADS; a++)
        for (unsigned b = 0; b < LOCKTABLE_THREADS; b++)
            rank[a] += higher(t, a, b);
    for (unsigned i = 0; i < LOCKTABLE_THREADS; i++)
        t->time[i] = t->live[i] ? (uint16_t)(MARKS * i) : 0;
    memcpy(t->priority, rank, sizeof rank);
    memset(t->releases, 0, sizeof t->releases);
    t->clock = MARKS * LOCKTABLE_THREADS;
}

/* A chain or any table, with set times that all share a mark or as they come, and a record of a history. */
static void draw_trial(struct dice *d, struct trial *s)
{
    struct mood m = roll(d, 2) == 0 ? all : draw_mood(d);
    if (roll(d, 2) == 0) {
        struct chain c;
        unsigned length = 1 + any_resource(d), waiting_percent = roll(d, 101), gap = roll(d, 2) == 0 ? MARKS : 1 + roll(d, MOST_GAP);
        make_chain(d, length, waiting_percent, gap, &s->table, &c);
    } else {
        make_table(d, &m, &s->table);
        if (roll(d, 2) == 0)
            tidy(&s->table);
    }
    model_set_currents(&s->table);
    model_set_totals(&s->table);
    s->record = draw_record(d, &m, &s->table, model_running(&s->table).running);
}

static void write_trial(const struct trial *s) { fwrite(s, sizeof *s, 1, stdout); }

static int draw(uint64_t seed, uint64_t trials)
{
    struct dice d = { mix(seed) };
    struct trial s;
    while (trials > 0) {
        draw_trial(&d, &s);
        if (settle(&s)) {
            write_trial(&s);
            trials--;
        }
    }
    return 0;
}

/* The trials of a file, up to so many of them. */
static unsigned read_trials(const char *path, struct trial *to, unsigned most)
{
    FILE *f = fopen(path, "rb");
    unsigned n = f != 0 ? (unsigned)fread(to, sizeof *to, most, f) : 0;
    if (n == 0) {
        fprintf(stderr, "search: no trial in %s\n", path);
        exit(2);
    }
    fclose(f);
    return n;
}

static struct trial changed(struct dice *d, const struct trial *from)
{
    struct trial s;
    do {
        s = *from;
        unsigned most = 1 + roll(d, MOST_CHANGES);
        for (unsigned left = 1 + roll(d, most); left > 0; left--)
            changes[roll(d, CHANGES)](d, &s);
    } while (!settle(&s));
    return s;
}

static int climb(uint64_t seed, uint64_t trials, const char *path)
{
    static struct trial climbers[MOST_CLIMBERS];
    struct dice d = { mix(seed) };
    unsigned n = read_trials(path, climbers, MOST_CLIMBERS);
    for (uint64_t i = 0; i < trials; i++) {
        struct trial s = changed(&d, climbers + i % n);
        write_trial(&s);
    }
    return 0;
}

/* Each table at the same place, aligned, and the stack from a page's edge on, as in cost.c: memcpy's count depends on where its ends lie. */
static int run(struct locktable_answer step(struct locktable *, struct locktable_record), const char *path)
{
    static _Alignas(64) struct locktable table;
    _Alignas(4096) volatile char page = 0;
    (void)page;
    struct trial s;
    FILE *f = fopen(path, "rb");
    if (f == 0) {
        perror(path);
        return 2;
    }
    while (fread(&s, sizeof s, 1, f) == 1) {
        table = s.table;
        step(&table, s.record);
    }
    fclose(f);
    return 0;
}

static int write_tidied(const char *path)
{
    struct trial s;
    read_trials(path, &s, 1);
    tidy(&s.table);
    if (!settle(&s))
        return 2;
    write_trial(&s);
    return 0;
}

static int take(const char *path)
{
    struct trial s;
    if (!read_trial(path, &s))
        return 2;
    write_trial(&s);
    return 0;
}

static int show(const char *path)
{
    struct trial s;
    read_trials(path, &s, 1);
    print_trial(&s);
    return 0;
}

static bool number(const char *word, uint64_t *n)
{
    char *end;
    *n = strtoull(word, &end, 10);
    return word[0] >= '0' && word[0] <= '9' && *end == 0;
}

int main(int argc, char **argv)
{
    const char *what = argc > 1 ? argv[1] : "", *side = argc > 2 ? argv[2] : "";
    uint64_t seed, n;
    bool numbers = argc > 3 && number(argv[2], &seed) && number(argv[3], &n);
    if (argc == 4 && numbers && strcmp(what, "draw") == 0)
        return draw(seed, n);
    if (argc == 5 && numbers && strcmp(what, "climb") == 0)
        return climb(seed, n, argv[4]);
    if (argc == 3 && strcmp(what, "tidy") == 0)
        return write_tidied(argv[2]);
    if (argc == 3 && strcmp(what, "take") == 0)
        return take(argv[2]);
    if (argc == 3 && strcmp(what, "show") == 0)
        return show(argv[2]);
    if (argc == 4 && strcmp(what, "run") == 0 && strcmp(side, "ours") == 0)
        return run(locktable_step, argv[3]);
    if (argc == 4 && strcmp(what, "run") == 0 && strcmp(side, "fast") == 0)
        return run(fast_step, argv[3]);
    fputs(usage, stderr);
    return 2;
}
