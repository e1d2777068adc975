/*
 * The decoder of examples/readout.c: a log comes in by standard input, a report goes out by standard output. It has two
 * faults that this heap makes harmless, names that do not fit and a free too many, and one that the vote catches: where
 * the log withdraws the nearest signal, the report speaks of it after its free. And it goes wrong where it is told to.
 */
#ifndef FAULTY_DECODER_H
#define FAULTY_DECODER_H

#include "poheldu.h"

#include <signal.h>
#include <stdio.h>
#include <stdlib.h>
#include <string.h>
#include <unistd.h>

enum { REGION = 65536, SIGNALS = 1000, NAME = 16, SCALE = 60 };

/* What a copy can be told to do wrong, to see what the station makes of it. */
enum fault { NONE, QUIT, HANG, CRASH, FLOOD, WRONG, LONGER };

/* One signal of the log. The name stands last: a copy to it ends where the object does. */
struct signal {
    unsigned long minute, metres;
    char name[NAME];
};

/* What became of a log. */
struct decoded {
    struct signal *signals[SIGNALS]; /* null where one was withdrawn */
    size_t count, unread;            /* signals, and lines that say nothing or that there was no room for */
    struct signal *nearest;
    unsigned long metres; /* how near */
};

/* Reads "minute metres name" off a line, whose name may be empty; null where it is no signal, or the heap is full. */
static struct signal *read_signal(const poheldu_heap *h, const char *line)
{
    char *metres_at, *name_at;
    const unsigned long minute = strtoul(line, &metres_at, 10), metres = strtoul(metres_at, &name_at, 10);
    struct signal *s = metres_at > line && name_at > metres_at ? poheldu_allocate(h, sizeof *s) : NULL;
    if (s == NULL)
        return NULL;
    s->minute = minute;
    s->metres = metres;
    poheldu_copy_string(h, s->name, name_at + strspn(name_at, " ")); /* one that does not fit is clipped, and ends */
    return s;
}

/* Adds the signal that a line has; 0 where it has none, or there is no room for it. */
static int add(const poheldu_heap *h, struct decoded *d, const char *line)
{
    struct signal *s = d->count < SIGNALS ? read_signal(h, line) : NULL;
    if (s == NULL)
        return 0;
    if (d->nearest == NULL || s->metres < d->metres) {
        d->nearest = s;
        d->metres = s->metres;
    }
    d->signals[d->count++] = s;
    return 1;
}

/* Withdraws a signal by its number, from 1; 0 where there is none. The fault: d->nearest may be the same. */
static int withdraw(const poheldu_heap *h, struct decoded *d, unsigned long number)
{
    if (number < 1 || number > d->count)
        return 0;
    poheldu_free(h, d->signals[number - 1]);
    d->signals[number - 1] = NULL;
    return 1;
}

/* Decodes the log, a line at a time: "withdraw number", a signal, or nothing that is understood. */
static void decode(const poheldu_heap *h, struct decoded *d)
{
    static const char back[] = "withdraw ";
    char *line = NULL;
    size_t room = 0;
    while (getline(&line, &room, stdin) >= 0) {
        line[strcspn(line, "\n")] = '\0';
        const int withdraws = strncmp(line, back, strlen(back)) == 0;
        if (!(withdraws ? withdraw(h, d, strtoul(line + strlen(back), NULL, 10)) : add(h, d, line)))
            d->unread++;
    }
    free(line);
}

/* Writes what was decoded: a line with a scale for each signal, and the nearest. */
static void report(const struct decoded *d)
{
    for (size_t i = 0; i < d->count; i++) {
        const struct signal *s = d->signals[i];
        if (s == NULL) {
            printf("withdrawn\n");
            continue;
        }
        const int at = s->metres < SCALE ? (int)s->metres : SCALE - 1;
        printf("minute %3lu %4lu m %-15s |%*s%*s|\n", s->minute, s->metres, s->name, at + 1, "x", SCALE - 1 - at, "");
    }
    if (d->nearest != NULL)
        printf("nearest: %lu m at minute %lu", d->nearest->metres, d->nearest->minute);
    else
        printf("nearest: none");
}

/* The decoder as a program; its exit status. A last byte that is wrong is another in each copy. */
static int decoder(int copy, poheldu_seeds seeds, uint32_t pattern, enum fault fault)
{
    static _Alignas(16) uint8_t heap[POHELDU_HEAP_BYTES(REGION)];
    static uint8_t metadata[POHELDU_METADATA_BYTES(REGION)];
    static struct decoded d;
    const poheldu_heap h = {heap, sizeof heap, metadata, sizeof metadata};
    while (fault == HANG)
        pause();
    if (fault == QUIT || poheldu_open_heap(&h, seeds, pattern).number != POHELDU_SERVED)
        return 1;
    decode(&h, &d);
    printf("%zu signals, %zu lines not read\n", d.count, d.unread);
    if (fault == CRASH && fflush(stdout) == 0)
        raise(SIGSEGV);
    while (fault == FLOOD)
        puts("and so on");
    report(&d);
    putchar(fault == WRONG ? '0' + copy : '\n');
    if (fault == LONGER)
        putchar('\0');
    for (size_t i = 0; i < d.count; i++)
        poheldu_free(&h, d.signals[i]); /* null is no object: nothing is done */
    poheldu_free(&h, d.nearest);        /* once too often: refused, and nothing changes */
    return ferror(stdin) || fflush(stdout) != 0 || ferror(stdout);
}

#endif
