/* How often an accepted step of the library copies the table: into the step and out of it, and no third time. The compiler may bring back a
   third copy without a word when the step grows (docs/DECISIONS.md, "What a call costs"). For a spare task of the terminal's, which is a step
   too, it only says how many there are.
   So many bytes are copied by a call of memcpy or memmove, and `bench/run` has the linker lead the library's calls here first (--wrap). */
#include <stdio.h>
#include "terminal.h"

enum { COPIES = 2 };

static struct locktable table;
static unsigned copies;

/* A call for as many bytes as the queues have is a copy of the table: it may be longer than a table, with the answer behind it, or shorter,
   where the other fields go by moves. Whatever else the step copies is shorter than the queues. */
static void note(size_t bytes) { copies += bytes >= sizeof table.queue; }

void *__real_memcpy(void *to, const void *from, size_t bytes);
void *__real_memmove(void *to, const void *from, size_t bytes);
void *__wrap_memcpy(void *to, const void *from, size_t bytes);
void *__wrap_memmove(void *to, const void *from, size_t bytes);

void *__wrap_memcpy(void *to, const void *from, size_t bytes)
{
    note(bytes);
    return __real_memcpy(to, from, bytes);
}

void *__wrap_memmove(void *to, const void *from, size_t bytes)
{
    note(bytes);
    return __real_memmove(to, from, bytes);
}

/* Every kind of event, and P and V in both their ways. */
static const struct { const char *name; struct locktable_record record; } events[] = {
    { "Create", { LOCKTABLE_CREATE, 0, 10, 0 } },
    { "Set", { LOCKTABLE_SET, 0, 11, 0 } },
    { "P of a free resource", { LOCKTABLE_P, 0, 0, 0 } },
    { "Create of one more urgent", { LOCKTABLE_CREATE, 1, 20, 0 } },
    { "P of a taken resource", { LOCKTABLE_P, 1, 0, 0 } },
    { "V with an heir", { LOCKTABLE_V, 0, 0, 0 } },
    { "V without an heir", { LOCKTABLE_V, 1, 0, 0 } },
    { "Exit", { LOCKTABLE_EXIT, 1, 0, 0 } },
};

/* Fewer copies fail too: then one is spared, and COPIES is to be lowered, or it is no call any more, and this test would see no third either. */
static int as_known(const char *name, struct locktable_record record)
{
    copies = 0;
    struct locktable_answer answer = locktable_step(&table, record);
    unsigned seen = copies;
    if (answer.number != LOCKTABLE_ACCEPTED)
        fprintf(stderr, "FAILED: copies: %s was refused with %u\n", name, answer.number);
    else if (seen > COPIES)
        fprintf(stderr, "FAILED: copies: %s copies the table %u times, not %u (docs/DECISIONS.md, \"What a call costs\")\n", name, seen, COPIES);
    else if (seen < COPIES)
        fprintf(stderr, "FAILED: copies: %s was seen to copy the table %u times, not %u (bench/copies.c says what then)\n", name, seen, COPIES);
    return answer.number == LOCKTABLE_ACCEPTED && seen == COPIES;
}

static unsigned copies_of_spare(void)
{
    copies = 0;
    struct locktable_answer answer = terminal_spare(&table, TERMINAL_FIRST_SPARE);
    return answer.number == LOCKTABLE_ACCEPTED ? copies : 0;
}

int main(void)
{
    locktable_empty(&table);
    for (size_t i = 0; i < sizeof events / sizeof *events; i++)
        if (!as_known(events[i].name, events[i].record))
            return 1;
    printf("copies: an accepted step copies the table %u times, whatever the event; a spare task %u times\n", COPIES, copies_of_spare());
    return 0;
}
