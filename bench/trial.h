/* A trial: a table, and a record for one step on it. */
#ifndef BENCH_TRIAL_H
#define BENCH_TRIAL_H
#include <stdbool.h>
#include "locktable.h"

/* It has no gaps, so that the bytes of many can stand in a file one after another. */
struct trial { struct locktable table; struct locktable_record record; };

/* As text, in which bench/worst keeps some: lines that start with # are for the reader, and all others are of these four kinds, in numbers.
     record KIND THREAD ARGUMENT ZERO
     clock TIME
     thread ID PRIORITY TIME CURRENT_PRIORITY CURRENT_TIME REQUESTS RELEASES    of each live thread
     resource ID HOLDER WAITER..                                                of each resource that is held, the waiters by arrival
   What they leave over is 0, as in a sound table. */
void print_trial(const struct trial *s);

/* False, after a line that says so, if the file cannot be read, is not such a text, or has a table that is not sound. */
bool read_trial(const char *path, struct trial *s);

#endif
