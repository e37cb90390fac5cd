/* The C versions that the library is compared with: the calls of locktable.h and terminal.h under other names. */
#ifndef BENCH_MODEL_H
#define BENCH_MODEL_H
#include <stdbool.h>
#include "terminal.h"

#define DECLARE_CALLS(SIDE)                                                                                                \
    struct locktable_answer SIDE##_step(struct locktable *t, struct locktable_record e);                                   \
    void SIDE##_empty(struct locktable *t);                                                                                \
    struct locktable_running_answer SIDE##_running(const struct locktable *t);                                             \
    struct locktable_thread_answer SIDE##_thread(const struct locktable *t, uint8_t thread);                               \
    struct locktable_resource_answer SIDE##_resource(const struct locktable *t, uint8_t resource);                         \
    uint8_t SIDE##_log(uint8_t *log, size_t size, uint32_t so_far, struct locktable_record e);                             \
    struct locktable_replayed SIDE##_replay(const uint8_t *log, size_t size);                                              \
    struct locktable_answer SIDE##_terminal_start(struct locktable *t);                                                    \
    struct locktable_answer SIDE##_terminal_spare(struct locktable *t, uint8_t id);                                        \
    struct locktable_answer SIDE##_terminal_spare_at(struct locktable *t, uint8_t id, uint8_t priority)

DECLARE_CALLS(model); /* model.c: documents 01 and 02 word by word, slow */
DECLARE_CALLS(fast);  /* fast.c: as one writes it for a kernel */
DECLARE_CALLS(nosse); /* fast.c again, compiled as kernels are: without SSE and without the red zone */
DECLARE_CALLS(best);  /* best.c: SSE2 by hand */

/* For making tables: sets every live thread's current precedence to the defined one. Queues must have lengths of at most 32
   and entries of at most 31. */
void model_set_currents(struct locktable *t);
/* For making tables too, with such queues: sets every live thread's requests so that they balance with its releases, which are lowered
   where the requests would be above the clock, and a dead one's totals to 0. */
void model_set_totals(struct locktable *t);
/* Whether the table is sound. */
bool model_sound(const struct locktable *t);

/* Why a table is not sound: what document 02 says of totals, each a bit in a set of those that it breaks, and all that document 01 says in
   one. */
enum table_rule { BALANCE_RULE = 1, CLOCK_RULE = 2, DEAD_RULE = 4, OTHER_RULES = 8 };
/* Which of them the table breaks; where it breaks others the totals are not looked at. */
unsigned model_broken_totals(const struct locktable *t);

/* What a block has to be like that takes a record, and does not start with it, or that is read back; each a bit in a set of those that it
   breaks. */
enum block_rule { NUMBER_RULE = 1, COUNT_RULE = 2, SPARE_RULE = 4, UNUSED_RULE = 8, CHECK_RULE = 16 };
/* Which of them the block breaks that stands where the log's next record goes, after so_far of them. */
unsigned model_broken_rules(const uint8_t *block, uint32_t so_far);
/* Which of them the block breaks that is read back, at this place of a log. */
unsigned model_broken_goodness(const uint8_t *block, uint32_t place);
/* The check that the block ought to have. */
uint32_t model_check(const uint8_t *block);

#endif
