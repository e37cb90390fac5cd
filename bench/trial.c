#include <stdio.h>
#include <stdlib.h>
#include <string.h>
#include "model.h"
#include "trial.h"

_Static_assert(sizeof(struct trial) == sizeof(struct locktable) + sizeof(struct locktable_record), "a trial has no gaps");

/* The longest line is that of a resource: its id, and everybody in its queue. */
enum { MOST_NUMBERS = 1 + LOCKTABLE_THREADS };

static void print_resource(const struct locktable *t, unsigned r)
{
    printf("resource %2u ", r);
    for (unsigned i = 0; i < t->length[r]; i++)
        printf(" %2u", t->queue[LOCKTABLE_THREADS * r + i]);
    printf("\n");
}

void print_trial(const struct trial *s)
{
    const struct locktable *t = &s->table;
    printf("# kind, thread, argument, zero\nrecord %u %u %u %u\n", s->record.kind, s->record.thread, s->record.argument, s->record.zero);
    printf("clock %u\n# id, own priority and time, current priority and time, requests, releases\n", t->clock);
    for (unsigned i = 0; i < LOCKTABLE_THREADS; i++)
        if (t->live[i])
            printf("thread %2u  %3u %5u  %3u %5u  %5u %5u\n", i, t->priority[i], t->time[i], t->current_priority[i], t->current_time[i],
                   t->requests[i], t->releases[i]);
    printf("# id, holder, waiters\n");
    for (unsigned r = 0; r < LOCKTABLE_RESOURCES; r++)
        if (t->length[r] > 0)
            print_resource(t, r);
}

static void take_thread(const unsigned long n[7], struct locktable *t)
{
    t->live[n[0]] = 1;
    t->priority[n[0]] = (uint8_t)n[1];
    t->time[n[0]] = (uint16_t)n[2];
    t->current_priority[n[0]] = (uint8_t)n[3];
    t->current_time[n[0]] = (uint16_t)n[4];
    t->requests[n[0]] = (uint16_t)n[5];
    t->releases[n[0]] = (uint16_t)n[6];
}

static void take_resource(const unsigned long *n, unsigned numbers, struct locktable *t)
{
    t->length[n[0]] = (uint8_t)(numbers - 1);
    for (unsigned i = 1; i < numbers; i++)
        t->queue[LOCKTABLE_THREADS * n[0] + i - 1] = (uint8_t)n[i];
}

/* A line by its first word and its numbers; false if it is none of the four. */
static bool take(const char *word, const unsigned long *n, unsigned numbers, struct trial *s)
{
    if (strcmp(word, "record") == 0 && numbers == 4)
        s->record = (struct locktable_record){ (uint8_t)n[0], (uint8_t)n[1], (uint8_t)n[2], (uint8_t)n[3] };
    else if (strcmp(word, "clock") == 0 && numbers == 1)
        s->table.clock = (uint16_t)n[0];
    else if (strcmp(word, "thread") == 0 && numbers == 7 && n[0] < LOCKTABLE_THREADS)
        take_thread(n, &s->table);
    else if (strcmp(word, "resource") == 0 && numbers > 1 && n[0] < LOCKTABLE_RESOURCES)
        take_resource(n, numbers, &s->table);
    else
        return false;
    return true;
}

static bool take_line(char *line, struct trial *s)
{
    unsigned long n[MOST_NUMBERS];
    unsigned numbers = 0;
    const char *word = strtok(line, " \n");
    if (word == 0 || word[0] == '#')
        return true;
    for (char *next = strtok(0, " \n"), *end; next != 0; next = strtok(0, " \n")) {
        if (numbers == MOST_NUMBERS)
            return false;
        n[numbers++] = strtoul(next, &end, 10);
        if (*end != 0)
            return false;
    }
    return take(word, n, numbers, s);
}

bool read_trial(const char *path, struct trial *s)
{
    char line[256];
    bool good = true;
    FILE *f = fopen(path, "r");
    if (f == 0) {
        perror(path);
        return false;
    }
    memset(s, 0, sizeof *s);
    while (good && fgets(line, sizeof line, f) != 0)
        good = take_line(line, s);
    fclose(f);
    good = good && model_sound(&s->table);
    if (!good)
        fprintf(stderr, "%s: not a text as in bench/trial.h, or its table is not sound\n", path);
    return good;
}
