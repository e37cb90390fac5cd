/* Records, tables, blocks of the log and logs by chance, the same for the same seed on every machine. */
#ifndef BENCH_DRAW_H
#define BENCH_DRAW_H
#include <stdint.h>
#include "terminal.h"

struct dice { uint64_t state; };

/* How a history goes: how many of each there are, and how often a record is junk. */
struct mood { unsigned threads, resources, priorities, junk_percent; };

uint64_t mix(uint64_t x);
unsigned roll(struct dice *d, unsigned below);

struct mood draw_mood(struct dice *d);
/* The next record of a history; `running` as the last answer said. */
struct locktable_record draw_record(struct dice *d, const struct mood *m, const struct locktable *t, unsigned running);
/* An event of the running thread or a Create, never junk; keeps `threads` threads live. */
struct locktable_record draw_busy_record(struct dice *d, const struct mood *m, const struct locktable *t, unsigned running);

/* A Create for a spare task, with any byte as its id: most often one that a spare task has, or the ids next to these. */
struct locktable_record draw_spare(struct dice *d, const struct mood *m);

/* Changes 1 to 4 bytes. */
void damage(struct dice *d, struct locktable *t);
/* Breaks at most one rule of a sound table and keeps the others, which changed bytes alone seldom do. */
void break_a_rule(struct dice *d, struct locktable *t);
/* A table that no history need lead to: mostly sound; at times a circle, a thread waiting twice, or equal times. */
void make_table(struct dice *d, const struct mood *m, struct locktable *t);
/* A sound table of 32 live threads: thread[i] holds resource[i] and waits for resource[i - 1], up to the length; of the others so many of a
   hundred wait somewhere in the chain. The last thread waits for nothing, holds nothing and is the highest, so it runs. Set times are `gap`
   apart, at most 2,000. */
enum { LAST_THREAD = LOCKTABLE_THREADS - 1, LAST_RESOURCE = LOCKTABLE_RESOURCES - 1 };
struct chain { uint8_t thread[LOCKTABLE_THREADS], resource[LOCKTABLE_RESOURCES]; };
void make_chain(struct dice *d, unsigned length, unsigned waiting_percent, unsigned gap, struct locktable *t, struct chain *c);
/* Closes such a chain to a circle of its first so many threads, 2 at least: the one that waited for nothing waits for what the last of them
   holds. Every other rule is kept. */
void close_circle(const struct dice *d, const struct chain *c, unsigned threads, struct locktable *t);
void fill_with_noise(struct dice *d, struct locktable *t);

/* Four bytes of any kind: the log does not judge them. */
struct locktable_record draw_any_record(struct dice *d);
/* How many records a log has so far, below 65,535: one of the first blocks, of the last or of all, and any place in it, often the first. */
uint32_t draw_so_far(struct dice *d);
/* Of a log with so_far records the block that takes the next one, as the model leaves it. Where the record would start it, nothing. */
void make_block(struct dice *d, uint8_t *log, uint32_t so_far);
/* Changes one or two bytes of a block with so many records, at most 125, or exchanges two. Every second time the check is made to agree again,
   so that it does not give the change away. */
void damage_block(struct dice *d, uint8_t block[LOCKTABLE_BLOCK], unsigned records);
void draw_bytes(struct dice *d, uint8_t *bytes, size_t n);

/* A log that is to be read back: how many records it has, and the place of one of them, with the table before it, and who runs there. */
struct drawn_log {
    uint32_t records, place;
    struct locktable table;
    unsigned running;
};
/* The log of accepted records by chance, from the empty table on, of none to four blocks, as the model writes it. */
void draw_log(struct dice *d, uint8_t *log, struct drawn_log *drawn);
/* Harms a log of this size in one way and gives its size afterwards: a damaged block, a shortened one, one that is missing, exchanged or too
   many, a refused record, or another size, at most one block above 525. The buffer has room for that. A log can be harmed twice. */
size_t harm_log(struct dice *d, uint8_t *log, const struct drawn_log *drawn, size_t size);

#endif
