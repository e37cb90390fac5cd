#include <stdbool.h>
#include <string.h>
#include "draw.h"
#include "model.h"

/* The first place of a resource's queue: it has LOCKTABLE_THREADS of them, one for each thread. */
static unsigned first_place(unsigned resource) { return LOCKTABLE_THREADS * resource; }

/* Where C would leave the order of two rolls open they stand in two statements: a seed means the same to every compiler. */

/* splitmix64 */
uint64_t mix(uint64_t x)
{
    x += 0x9e3779b97f4a7c15u;
    x = (x ^ x >> 30) * 0xbf58476d1ce4e5b9u;
    x = (x ^ x >> 27) * 0x94d049bb133111ebu;
    return x ^ x >> 31;
}

unsigned roll(struct dice *d, unsigned below)
{
    d->state = mix(d->state);
    return (unsigned)((d->state >> 32) % below);
}

static bool chance(struct dice *d, unsigned percent) { return roll(d, 100) < percent; }

struct mood draw_mood(struct dice *d)
{
    static const unsigned priorities[] = { 1, 2, 3, 8, 256 }, junk[] = { 0, 2, 10, 50 };
    struct mood m;
    m.threads = chance(d, 50) ? 2 + roll(d, 6) : 2 + roll(d, LOCKTABLE_THREADS - 1);
    m.resources = chance(d, 50) ? 1 + roll(d, 4) : 1 + roll(d, LOCKTABLE_RESOURCES);
    m.priorities = priorities[roll(d, 5)];
    m.junk_percent = junk[roll(d, 4)];
    return m;
}

/* Few priorities give many ties; the ends 0 and 255 come up in every choice but one. */
static uint8_t draw_priority(struct dice *d, const struct mood *m)
{
    return m->priorities == 1 ? 7 : (uint8_t)(roll(d, m->priorities) * 255 / (m->priorities - 1));
}

static struct locktable_record junk_record(struct dice *d)
{
    struct locktable_record e;
    e.kind = (uint8_t)roll(d, chance(d, 80) ? 7 : 256);
    e.thread = (uint8_t)roll(d, chance(d, 80) ? 34 : 256);
    e.argument = (uint8_t)roll(d, chance(d, 60) ? 18 : 256);
    e.zero = (uint8_t)roll(d, chance(d, 80) ? 1 : 256);
    return e;
}

/* A resource that the thread holds, if there is one. */
static unsigned held_resource(struct dice *d, const struct locktable *t, unsigned thread)
{
    unsigned start = roll(d, LOCKTABLE_RESOURCES);
    for (unsigned i = 0; i < LOCKTABLE_RESOURCES; i++) {
        unsigned r = (start + i) % LOCKTABLE_RESOURCES;
        if (t->length[r] > 0 && t->queue[first_place(r)] == thread)
            return r;
    }
    return start;
}

static struct locktable_record create_record(struct dice *d, const struct mood *m, const struct locktable *t)
{
    unsigned start = roll(d, m->threads), thread = start;
    for (unsigned i = 0; i < m->threads && t->live[thread]; i++)
        thread = (start + i) % m->threads;
    return (struct locktable_record){ LOCKTABLE_CREATE, (uint8_t)thread, draw_priority(d, m), 0 };
}

/* A resource that another thread holds, if there is one: without such requests there is little contention. */
static unsigned taken_resource(struct dice *d, const struct mood *m, const struct locktable *t, unsigned thread)
{
    unsigned start = roll(d, m->resources);
    for (unsigned i = 0; i < m->resources; i++) {
        unsigned r = (start + i) % m->resources;
        if (t->length[r] > 0 && t->queue[first_place(r)] != thread)
            return r;
    }
    return start;
}

static struct locktable_record own_record(struct dice *d, const struct mood *m, const struct locktable *t, unsigned thread)
{
    unsigned what = roll(d, 100);
    struct locktable_record e = { LOCKTABLE_P, (uint8_t)thread, (uint8_t)roll(d, m->resources), 0 };
    if (what < 28)
        e.kind = LOCKTABLE_V, e.argument = (uint8_t)held_resource(d, t, thread);
    else if (what < 30)
        e.kind = LOCKTABLE_V;
    else if (what < 45)
        e.kind = LOCKTABLE_SET, e.argument = draw_priority(d, m);
    else if (what < 52)
        e.kind = LOCKTABLE_EXIT, e.argument = 0;
    else if (what < 75)
        e.argument = (uint8_t)taken_resource(d, m, t, thread);
    return e;
}

struct locktable_record draw_record(struct dice *d, const struct mood *m, const struct locktable *t, unsigned running)
{
    if (chance(d, m->junk_percent))
        return junk_record(d);
    if (running >= LOCKTABLE_THREADS || chance(d, 25))
        return create_record(d, m, t);
    return own_record(d, m, t, chance(d, 97) ? running : roll(d, m->threads));
}

struct locktable_record draw_busy_record(struct dice *d, const struct mood *m, const struct locktable *t, unsigned running)
{
    unsigned live = 0;
    for (int i = 0; i < LOCKTABLE_THREADS; i++)
        live += t->live[i];
    return live < m->threads ? create_record(d, m, t) : own_record(d, m, t, running);
}

static unsigned draw_spare_id(struct dice *d)
{
    switch (roll(d, 8)) {
    case 0: return TERMINAL_FIRST_SPARE - roll(d, 2);
    case 1: return TERMINAL_LAST_SPARE + roll(d, 2);
    case 2: return roll(d, TERMINAL_TASKS);
    case 3: return roll(d, 256);
    default: return TERMINAL_FIRST_SPARE + roll(d, TERMINAL_LAST_SPARE - TERMINAL_FIRST_SPARE + 1);
    }
}

struct locktable_record draw_spare(struct dice *d, const struct mood *m)
{
    struct locktable_record e = { LOCKTABLE_CREATE, (uint8_t)draw_spare_id(d), 0, 0 };
    e.argument = chance(d, 50) ? draw_priority(d, m) : (uint8_t)roll(d, 256);
    return e;
}

/* A byte of a table, every second one away from the queues, which are most of the bytes. */
static unsigned draw_byte(struct dice *d)
{
    enum { QUEUE = offsetof(struct locktable, queue), LENGTH = offsetof(struct locktable, length) };
    enum { TOTALS = offsetof(struct locktable, requests), END = sizeof(struct locktable) };
    if (chance(d, 50))
        return roll(d, END);
    if (chance(d, 75))
        return roll(d, QUEUE);
    return chance(d, 50) ? LENGTH + roll(d, TOTALS - LENGTH) : TOTALS + roll(d, END - TOTALS);
}

void damage(struct dice *d, struct locktable *t)
{
    uint8_t *bytes = (uint8_t *)t;
    for (unsigned left = 1 + roll(d, 4); left > 0; left--) {
        unsigned at = draw_byte(d);
        switch (roll(d, 4)) {
        case 0: bytes[at] = (uint8_t)roll(d, 256); break;
        case 1: bytes[at] ^= (uint8_t)(1u << roll(d, 8)); break;
        case 2: bytes[at] = (uint8_t)(bytes[at] + (chance(d, 50) ? 1 : 255)); break;
        default: bytes[at] = bytes[roll(d, sizeof *t)]; break;
        }
    }
}

/* Live threads with times below the clock; a time may come twice, by a small chance. */
static void make_slots(struct dice *d, const struct mood *m, struct locktable *t)
{
    unsigned start = 1 + roll(d, 65000), gap = 1 + roll(d, 16), next = roll(d, start), dead_percent = chance(d, 50) ? 0 : 10;
    t->clock = (uint16_t)(start + LOCKTABLE_THREADS * gap);
    for (unsigned i = 0, at = roll(d, m->threads); i < m->threads; i++, at = (at + 7) % m->threads) {
        if (t->live[at] || chance(d, dead_percent))
            continue;
        t->live[at] = 1;
        t->priority[at] = draw_priority(d, m);
        t->time[at] = (uint16_t)next;
        next += roll(d, 400) == 0 ? 0 : 1 + roll(d, gap);
    }
}

static void put(struct locktable *t, unsigned resource, unsigned thread)
{
    uint8_t *queue = t->queue + first_place(resource);
    if (t->length[resource] == LOCKTABLE_THREADS || memchr(queue, (int)thread, t->length[resource]) != 0)
        return;
    queue[t->length[resource]++] = (uint8_t)thread;
}

static void swap_entries(struct locktable *t, unsigned resource, unsigned a, unsigned b)
{
    uint8_t *queue = t->queue + first_place(resource), kept = queue[a];
    queue[a] = queue[b];
    queue[b] = kept;
}

static void kill(struct locktable *t, unsigned thread)
{
    t->live[thread] = t->priority[thread] = t->current_priority[thread] = 0;
    t->time[thread] = t->current_time[thread] = t->requests[thread] = t->releases[thread] = 0;
}

/* One who waits twice, which is not sound, has open one request for waiting, as document 02 says. Here it gets one for each time, so that
   who counts its places finds nothing wrong with its totals. */
static void count_each_wait(struct locktable *t)
{
    uint32_t seen = 0;
    for (unsigned r = 0; r < LOCKTABLE_RESOURCES; r++)
        for (unsigned i = 1; i < t->length[r]; i++) {
            unsigned thread = t->queue[first_place(r) + i];
            t->requests[thread] += seen >> thread & 1;
            seen |= (uint32_t)1 << thread;
        }
}

/* The totals that go with queues and clock, and as far as can be with the releases that there are. */
static void mend_totals(struct dice *d, struct locktable *t)
{
    model_set_totals(t);
    if (chance(d, 50))
        count_each_wait(t);
}

/* Any releases, few or as many as the clock has room for. The dice are others, so that all else is the same as without totals. */
static void draw_totals(const struct dice *drawn, struct locktable *t)
{
    struct dice d = { ~drawn->state };
    for (unsigned i = 0; i < LOCKTABLE_THREADS; i++) {
        unsigned which = roll(&d, 8), below = which == 0 ? 3 : t->clock + 1u;
        t->releases[i] = which == 1 ? UINT16_MAX : (uint16_t)roll(&d, below);
    }
    mend_totals(&d, t);
}

/* By any number. If the queue can still be read, totals are those of who stands there then. */
static void lengthen(struct dice *d, struct locktable *t, unsigned resource)
{
    unsigned length = t->length[resource];
    t->length[resource] = (uint8_t)(length + roll(d, 256 - length));
    if (t->length[resource] <= LOCKTABLE_THREADS)
        mend_totals(d, t);
}

/* Of dead slots, lives, spare places and lengths: nothing else depends on them but totals. */
static void break_a_plain_rule(struct dice *d, struct locktable *t, unsigned thread, unsigned resource)
{
    unsigned length = t->length[resource], spare = first_place(resource) + length + roll(d, LOCKTABLE_THREADS - length);
    switch (roll(d, 6)) {
    case 0: t->priority[thread] = t->current_priority[thread] = (uint8_t)roll(d, 256); break;
    case 1: t->time[thread] = t->current_time[thread] = (uint16_t)roll(d, t->clock + 1u); break;
    case 2: t->live[thread] = (uint8_t)(t->live[thread] + 2 * roll(d, 128)); break;
    case 3: t->queue[spare] = (uint8_t)(1 + roll(d, 255)); break;
    case 4: lengthen(d, t, resource); break;
    default: t->current_time[thread] = t->time[roll(d, LOCKTABLE_THREADS)]; break;
    }
}

/* Of times and queues. The current precedences and the totals are then those of the new table, so that they do not give it away. */
static void break_a_queue_rule(struct dice *d, struct locktable *t, unsigned thread, unsigned resource)
{
    unsigned length = t->length[resource], place = roll(d, length > 0 ? length : 1);
    switch (roll(d, 5)) {
    case 0: t->time[thread] = t->time[roll(d, LOCKTABLE_THREADS)]; break;
    case 1: t->clock = (uint16_t)(t->time[thread] + roll(d, 2)); break;
    case 2: put(t, resource, thread); break;
    case 3: kill(t, length > 0 ? t->queue[first_place(resource) + place] : thread); break;
    default: swap_entries(t, resource, place, roll(d, length > 0 ? length : 1)); break;
    }
    model_set_currents(t);
    mend_totals(d, t);
}

/* Both by so many, so that they stay in balance, be it above the clock. */
static void raise_totals(struct locktable *t, unsigned thread, unsigned by)
{
    t->requests[thread] += by;
    t->releases[thread] += by;
}

/* Where the clock is at its end: requests that have run over, and releases not yet; or both close to the end, in balance or not. */
static void run_over(struct dice *d, struct locktable *t, unsigned thread)
{
    t->clock = LOCKTABLE_EVENTS;
    raise_totals(t, thread, LOCKTABLE_EVENTS + 1u - t->requests[thread]);
    if (chance(d, 50))
        return;
    t->requests[thread] = (uint16_t)(LOCKTABLE_EVENTS - roll(d, 3));
    t->releases[thread] = (uint16_t)(LOCKTABLE_EVENTS - roll(d, 6));
}

/* Of totals: their balance, the clock, dead slots. Every second time it is a live thread's, if one comes up soon. */
static void break_a_total(struct dice *d, struct locktable *t, unsigned thread)
{
    unsigned what = roll(d, 9), other = roll(d, LOCKTABLE_THREADS), any = roll(d, t->clock + 1u), one = chance(d, 50) ? 1 : UINT16_MAX;
    for (int i = roll(d, 2) * 16; i > 0 && !t->live[thread]; i--)
        thread = roll(d, LOCKTABLE_THREADS);
    uint16_t kept = t->requests[thread];
    unsigned room = t->clock > kept ? t->clock - kept : 0;
    switch (what) {
    case 0: t->requests[thread] = (uint16_t)any; break;
    case 1: t->releases[thread] = (uint16_t)any; break;
    case 2: t->requests[thread] += one; break;
    case 3: t->releases[thread] += one; break;
    case 4: t->requests[thread] = t->requests[other], t->requests[other] = kept; break;
    case 5: raise_totals(t, thread, roll(d, room + 1)); break;
    case 6: raise_totals(t, thread, room + 1); break;
    case 7: raise_totals(t, thread, room + 1 + roll(d, 100)); break;
    default: run_over(d, t, thread); break;
    }
}

void break_a_rule(struct dice *d, struct locktable *t)
{
    unsigned thread = roll(d, LOCKTABLE_THREADS), resource = roll(d, LOCKTABLE_RESOURCES);
    /* A queue that is in use, if one comes up soon. */
    for (int i = 0; i < 8 && t->length[resource] == 0; i++)
        resource = roll(d, LOCKTABLE_RESOURCES);
    if (chance(d, 30))
        break_a_total(d, t, thread);
    else if (t->length[resource] == LOCKTABLE_THREADS || chance(d, 50))
        break_a_queue_rule(d, t, thread, resource);
    else
        break_a_plain_rule(d, t, thread, resource);
}

void make_table(struct dice *d, const struct mood *m, struct locktable *t)
{
    memset(t, 0, sizeof *t);
    make_slots(d, m, t);
    /* Holders that come in the order of their ids, and waiters that go to resources of later ids, close no circle. */
    bool circles = chance(d, 60);
    for (unsigned r = 0; r < m->resources; r++) {
        unsigned h = circles ? roll(d, m->threads) : (2 * r + roll(d, 2)) % m->threads;
        if (t->live[h] && chance(d, 85))
            put(t, r, h);
    }
    for (unsigned i = 0; i < m->threads; i++) {
        unsigned r = roll(d, m->resources);
        for (unsigned times = roll(d, 60) == 0 ? 2 : 1; times > 0; times--, r = (r + 1) % m->resources)
            if (t->live[i] && chance(d, 80) && t->length[r] > 0 && (circles || t->queue[first_place(r)] > i))
                put(t, r, i);
    }
    model_set_currents(t);
    draw_totals(d, t);
}

static void shuffle(struct dice *d, uint8_t *ids, unsigned n)
{
    for (unsigned i = 0; i < n; i++) {
        unsigned k = roll(d, i + 1);
        ids[i] = ids[k];
        ids[k] = (uint8_t)i;
    }
}

void make_chain(struct dice *d, unsigned length, unsigned waiting_percent, unsigned gap, struct locktable *t, struct chain *c)
{
    memset(t, 0, sizeof *t);
    shuffle(d, c->thread, LOCKTABLE_THREADS);
    shuffle(d, c->resource, LOCKTABLE_RESOURCES);
    t->clock = (uint16_t)(LOCKTABLE_THREADS * gap);
    for (unsigned i = 0; i < LOCKTABLE_THREADS; i++) {
        t->live[c->thread[i]] = 1;
        t->priority[c->thread[i]] = i == LAST_THREAD ? 255 : (uint8_t)roll(d, 255);
        t->time[c->thread[i]] = (uint16_t)(i * gap);
    }
    for (unsigned i = 0; i < length; i++)
        put(t, c->resource[i], c->thread[i]);
    for (unsigned i = 1; i < length; i++)
        put(t, c->resource[i - 1], c->thread[i]);
    for (unsigned i = length; i < LAST_THREAD; i++)
        if (chance(d, waiting_percent))
            put(t, c->resource[roll(d, length)], c->thread[i]);
    model_set_currents(t);
    draw_totals(d, t);
}

void close_circle(const struct dice *d, const struct chain *c, unsigned threads, struct locktable *t)
{
    put(t, c->resource[threads - 1], c->thread[0]);
    model_set_currents(t);
    draw_totals(d, t);
}

void fill_with_noise(struct dice *d, struct locktable *t)
{
    uint8_t *bytes = (uint8_t *)t;
    unsigned below = chance(d, 50) ? 256 : 2;
    for (unsigned i = 0; i < sizeof *t; i++)
        bytes[i] = (uint8_t)roll(d, below);
}

struct locktable_record draw_any_record(struct dice *d)
{
    unsigned below = chance(d, 80) ? 256 : 2;
    struct locktable_record e;
    e.kind = (uint8_t)roll(d, below);
    e.thread = (uint8_t)roll(d, below);
    e.argument = (uint8_t)roll(d, below);
    e.zero = (uint8_t)roll(d, below);
    return e;
}

uint32_t draw_so_far(struct dice *d)
{
    enum { BLOCKS = LOCKTABLE_LOG_SIZE / LOCKTABLE_BLOCK, FEW = 5 };
    unsigned which = roll(d, 8), number = roll(d, which == 0 ? BLOCKS : FEW);
    if (which == 1)
        number = BLOCKS - 1 - number;
    uint32_t so_far = number * LOCKTABLE_BLOCK_RECORDS + (chance(d, 10) ? 0 : roll(d, LOCKTABLE_BLOCK_RECORDS));
    return so_far < LOCKTABLE_EVENTS ? so_far : LOCKTABLE_EVENTS - 1;
}

/* Eight at a time: a log is long. */
void draw_bytes(struct dice *d, uint8_t *bytes, size_t n)
{
    for (size_t i = 0; i < n; i += sizeof d->state) {
        d->state = mix(d->state);
        memcpy(bytes + i, &d->state, n - i < sizeof d->state ? n - i : sizeof d->state);
    }
}

void make_block(struct dice *d, uint8_t *log, uint32_t so_far)
{
    for (uint32_t i = so_far - so_far % LOCKTABLE_BLOCK_RECORDS; i < so_far; i++)
        model_log(log, LOCKTABLE_LOG_SIZE, i, draw_any_record(d));
}

static void mend_check(uint8_t block[LOCKTABLE_BLOCK])
{
    uint32_t check = model_check(block);
    memcpy(block + LOCKTABLE_BLOCK - sizeof check, &check, sizeof check);
}

/* A place in one of the parts of a block: its number, the bytes of its count, the spare ones, the used records, the others, its check. */
static unsigned draw_place(struct dice *d, unsigned records)
{
    enum { COUNT_AT = 4, SPARE_AT = 6, RECORDS_AT = 8, CHECK_AT = LOCKTABLE_BLOCK - 4 };
    unsigned end = RECORDS_AT + 4 * records;
    switch (roll(d, 7)) {
    case 0: return roll(d, COUNT_AT);
    case 1: return COUNT_AT;
    case 2: return COUNT_AT + 1;
    case 3: return SPARE_AT + roll(d, RECORDS_AT - SPARE_AT);
    case 4: return records > 0 ? RECORDS_AT + roll(d, end - RECORDS_AT) : RECORDS_AT;
    case 5: return end < CHECK_AT ? end + roll(d, CHECK_AT - end) : CHECK_AT;
    default: return CHECK_AT + roll(d, LOCKTABLE_BLOCK - CHECK_AT);
    }
}

static void change_byte(struct dice *d, uint8_t *byte)
{
    switch (roll(d, 3)) {
    case 0: *byte = (uint8_t)roll(d, 256); break;
    case 1: *byte ^= (uint8_t)(1u << roll(d, 8)); break;
    default: *byte = (uint8_t)(*byte + (chance(d, 50) ? 1 : 255)); break;
    }
}

void damage_block(struct dice *d, uint8_t block[LOCKTABLE_BLOCK], unsigned records)
{
    unsigned what = roll(d, 4), a = draw_place(d, records), b = draw_place(d, records);
    uint8_t kept = block[a];
    if (what == 0) {
        block[a] = block[b];
        block[b] = kept;
    } else {
        change_byte(d, &block[a]);
        if (what == 1)
            change_byte(d, &block[b]);
    }
    if (chance(d, 50))
        mend_check(block);
}

/* None to two records; one to three full blocks, or a record more or less; or any number up to that. */
static uint32_t draw_records(struct dice *d)
{
    enum { MOST_BLOCKS = 3 };
    uint32_t full = LOCKTABLE_BLOCK_RECORDS * (1 + roll(d, MOST_BLOCKS));
    switch (roll(d, 6)) {
    case 0: return roll(d, 3);
    case 1: return full - 1;
    case 2: return full + 1;
    case 3: return full;
    default: return 1 + roll(d, MOST_BLOCKS * LOCKTABLE_BLOCK_RECORDS);
    }
}

/* The place of a record in the log: any, the first of a block or the last one. */
static uint32_t draw_place_in_log(struct dice *d, uint32_t records)
{
    uint32_t any = roll(d, records > 0 ? records : 1), first = any - any % LOCKTABLE_BLOCK_RECORDS;
    uint32_t last = first + LOCKTABLE_BLOCK_RECORDS < records ? first + LOCKTABLE_BLOCK_RECORDS - 1 : records - 1;
    switch (roll(d, 4)) {
    case 0: return first;
    case 1: return records > 0 ? last : 0;
    default: return any;
    }
}

void draw_log(struct dice *d, uint8_t *log, struct drawn_log *drawn)
{
    struct mood m = draw_mood(d);
    struct locktable t;
    unsigned running = LOCKTABLE_NOBODY;
    m.junk_percent = 0;
    drawn->records = draw_records(d);
    drawn->place = draw_place_in_log(d, drawn->records);
    model_empty(&t);
    for (;;) {
        if (t.clock == drawn->place)
            drawn->table = t, drawn->running = running;
        if (t.clock == drawn->records)
            return;
        struct locktable_record e = draw_record(d, &m, &t, running);
        struct locktable_answer a = model_step(&t, e);
        running = a.running;
        if (a.number == LOCKTABLE_ACCEPTED)
            model_log(log, LOCKTABLE_LOG_SIZE, t.clock - 1u, e);
    }
}

static unsigned records_of(const uint8_t block[LOCKTABLE_BLOCK])
{
    unsigned count = block[4] + 256u * block[5];
    return count < LOCKTABLE_BLOCK_RECORDS ? count : LOCKTABLE_BLOCK_RECORDS;
}

static void put_number(uint8_t block[LOCKTABLE_BLOCK], size_t number)
{
    uint32_t low_first = (uint32_t)number;
    memcpy(block, &low_first, sizeof low_first);
    mend_check(block);
}

/* Leaves fewer records in a block than it has, be it none. In itself it stays good if there are any. At times the first would be refused. */
static void shorten_block(struct dice *d, uint8_t block[LOCKTABLE_BLOCK])
{
    unsigned records = records_of(block), left = roll(d, records > 0 ? records : 1);
    memset(block + 8 + 4 * left, 0, 4 * (LOCKTABLE_BLOCK_RECORDS - left));
    block[4] = (uint8_t)left;
    block[5] = 0;
    if (chance(d, 30))
        block[8] = 0;
    mend_check(block);
}

/* Every second time the two get the numbers of their new places, so that only their records give it away. */
static void exchange_blocks(struct dice *d, uint8_t *log, size_t one, size_t other)
{
    uint8_t kept[LOCKTABLE_BLOCK], *a = log + LOCKTABLE_BLOCK * one, *b = log + LOCKTABLE_BLOCK * other;
    memcpy(kept, a, sizeof kept);
    memmove(a, b, sizeof kept);
    memcpy(b, kept, sizeof kept);
    if (chance(d, 50)) {
        put_number(a, one);
        put_number(b, other);
    }
}

/* The blocks behind it move up, every second time with the numbers of their new places. */
static void take_out_block(struct dice *d, uint8_t *log, size_t place, size_t blocks)
{
    bool mend = chance(d, 50);
    for (size_t i = place; i + 1 < blocks; i++) {
        memcpy(log + LOCKTABLE_BLOCK * i, log + LOCKTABLE_BLOCK * (i + 1), LOCKTABLE_BLOCK);
        if (mend)
            put_number(log + LOCKTABLE_BLOCK * i, i);
    }
}

/* As in a buffer that is longer than its log: what it has there already, which is noise, zeros, or a good block of another log. */
static void put_behind(struct dice *d, uint8_t *log, size_t blocks)
{
    uint8_t *behind = log + LOCKTABLE_BLOCK * blocks;
    unsigned what = roll(d, 3);
    if (what == 0)
        return;
    memset(behind, 0, LOCKTABLE_BLOCK);
    if (what == 1)
        return;
    behind[4] = (uint8_t)(1 + roll(d, LOCKTABLE_BLOCK_RECORDS));
    for (unsigned i = 0; i < behind[4]; i++)
        behind[8 + 4 * i] = (uint8_t)(1 + roll(d, 5));
    put_number(behind, blocks);
}

/* At the place that was drawn with the log stands a record that is refused there, if one comes up soon. */
static void refuse_record(struct dice *d, uint8_t *log, const struct drawn_log *drawn)
{
    uint8_t *block = log + LOCKTABLE_BLOCK * (drawn->place / LOCKTABLE_BLOCK_RECORDS);
    struct mood m = { LOCKTABLE_THREADS, LOCKTABLE_RESOURCES, 256, 0 };
    struct locktable_record e;
    struct locktable copy;
    int tries = 0;
    if (chance(d, 50))
        m.junk_percent = 30;
    if (chance(d, 50))
        m.threads = 1 + roll(d, 4); /* so that a Create finds all of them live */
    do {
        copy = drawn->table;
        e = draw_record(d, &m, &copy, drawn->running);
    } while (model_step(&copy, e).number == LOCKTABLE_ACCEPTED && ++tries < 16);
    memcpy(block + 8 + 4 * (drawn->place % LOCKTABLE_BLOCK_RECORDS), &e, sizeof e);
    mend_check(block);
}

/* The size alone: no multiple of a block's, or more than 525 blocks. */
static size_t harm_size(struct dice *d, size_t size)
{
    switch (roll(d, 4)) {
    case 0: return LOCKTABLE_LOG_SIZE + LOCKTABLE_BLOCK;
    case 1: return LOCKTABLE_LOG_SIZE + 1 + roll(d, LOCKTABLE_BLOCK - 1);
    case 2: return size > 0 ? size - 1 - roll(d, LOCKTABLE_BLOCK - 1) : 1;
    default: return size + 1 + roll(d, LOCKTABLE_BLOCK - 1);
    }
}

size_t harm_log(struct dice *d, uint8_t *log, const struct drawn_log *drawn, size_t size)
{
    size_t blocks = size / LOCKTABLE_BLOCK, one = roll(d, blocks > 0 ? (unsigned)blocks : 1);
    uint8_t *block = log + LOCKTABLE_BLOCK * one;
    unsigned what = blocks > 0 ? roll(d, 10) : roll(d, 2);
    if (size % LOCKTABLE_BLOCK != 0 || size > LOCKTABLE_LOG_SIZE)
        return size;
    switch (what) {
    case 0: return harm_size(d, size);
    case 1: put_behind(d, log, blocks); return size + LOCKTABLE_BLOCK;
    case 2: take_out_block(d, log, one, blocks); return size - LOCKTABLE_BLOCK;
    case 3: exchange_blocks(d, log, one, roll(d, (unsigned)blocks)); return size;
    case 4: shorten_block(d, block); return size;
    case 5: case 6: damage_block(d, block, records_of(block)); return size;
    default: refuse_record(d, log, drawn); return size;
    }
}
