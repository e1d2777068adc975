/*
 * Decodes a beacon's search log three times, each time on a heap of its own with new seeds and another pattern, and
 * passes on what two copies agree on. The decoder has two faults, a name that does not fit its object and an object
 * that is freed twice: on this heap neither does harm. The name is clipped and still ends, so that it prints as any
 * other. What repeats a readout goes to standard error, for the rental slip: with the seeds as arguments, two for each
 * copy, all objects lie where they lay.
 */
#include "poheldu.h"

#include <inttypes.h>
#include <stdio.h>
#include <stdlib.h>
#include <string.h>

enum { REGION = 4096, LINE = 128, NAME = 16, COPIES = 3, OUTPUT = 256 };

/*
 * What clear slots hold: in each copy another, so that a copy that reads what it has freed reads something else than
 * the others, and loses the vote.
 */
static const uint32_t patterns[COPIES] = {0xB5E3C7A9, 0xA7D1F3E5, 0xC9B3E1D7};

/* One signal of the log. */
struct signal {
    struct signal *next;
    unsigned long minute, metres;
    char *name;
};

/* What became of a log. */
struct decoded {
    struct signal *signals; /* the last one first */
    unsigned count, unread; /* signals, and lines that are none or that the heap had no room for */
};

/* A new signal with room for a name of len bytes and its zero, at most NAME; null where the heap has none for both. */
static struct signal *new_signal(const poheldu_heap *h, size_t len)
{
    struct signal *s = poheldu_allocate(h, sizeof *s);
    char *name = poheldu_allocate(h, len < NAME ? len + 1 : NAME);
    if (s == NULL || name == NULL) {
        poheldu_free(h, s); /* null is no object: nothing is done */
        poheldu_free(h, name);
        return NULL;
    }
    s->name = name;
    return s;
}

/* Reads "minute metres name" off a line, whose name may be empty; null where it is no signal, or the heap is full. */
static struct signal *read_signal(const poheldu_heap *h, const char *line)
{
    char *metres_at, *name_at;
    const unsigned long minute = strtoul(line, &metres_at, 10), metres = strtoul(metres_at, &name_at, 10);
    const char *const name = name_at + strspn(name_at, " ");
    if (metres_at == line || name_at == metres_at)
        return NULL;
    struct signal *s = new_signal(h, strlen(name));
    if (s == NULL)
        return NULL;
    s->minute = minute;
    s->metres = metres;
    /* The name may be longer than its object: the copy ends there all the same, with a zero. */
    poheldu_copy_string(h, s->name, name);
    return s;
}

/* Copies the first line of a log, cut where it is too long, to a string of its own, and gives where the next begins. */
static const char *take_line(const char *log, char line[LINE])
{
    const size_t len = strcspn(log, "\n");
    snprintf(line, LINE, "%.*s", len < LINE ? (int)len : LINE - 1, log);
    return log + len + (log[len] == '\n');
}

/* Decodes a log of lines on a heap; empty lines say nothing. */
static struct decoded decode(const poheldu_heap *h, const char *log)
{
    struct decoded d = {NULL, 0, 0};
    char line[LINE];
    while (*log != '\0') {
        log = take_line(log, line);
        if (line[0] == '\0')
            continue;
        struct signal *s = read_signal(h, line);
        if (s == NULL) {
            d.unread++;
            continue;
        }
        s->next = d.signals;
        d.signals = s;
        d.count++;
    }
    return d;
}

/* Writes what was decoded to a report of OUTPUT bytes, and frees it. */
static void report_on(const poheldu_heap *h, struct decoded d, char report[OUTPUT])
{
    memset(report, 0, OUTPUT);
    size_t at = (size_t)snprintf(report, OUTPUT, "%u signals, %u lines not read\n", d.count, d.unread);
    for (struct signal *s = d.signals, *next; s != NULL && at < OUTPUT; s = next) {
        next = s->next;
        at += (size_t)snprintf(report + at, OUTPUT - at, "minute %lu, %lu m: \"%s\"\n", s->minute, s->metres, s->name);
        poheldu_free(h, s->name);
        poheldu_free(h, s->name); /* once too often: refused, and nothing changes */
        poheldu_free(h, s);
    }
}

/* A half of noted seeds, as it was printed; 0, which opening refuses, where it is no such number. */
static uint32_t noted(const char *text)
{
    char *end;
    const unsigned long half = strtoul(text, &end, 16);
    return *end == '\0' && half <= UINT32_MAX ? (uint32_t)half : 0;
}

/* Opens a copy's heap, and says on standard error what repeats it; 0 where that is refused. */
static int open_copy(const poheldu_heap *h, int copy, poheldu_seeds s)
{
    const poheldu_answer opened = poheldu_open_heap(h, s, patterns[copy]);
    if (opened.number != POHELDU_SERVED) {
        fprintf(stderr, "copy %d: %s\n", copy, poheldu_name(opened.number));
        return 0;
    }
    fprintf(stderr, "copy %d: seeds %08" PRIx32 " %08" PRIx32 ", pattern %08" PRIx32 ", regions of %d bytes\n", copy,
            s.z, s.w, patterns[copy], REGION);
    return 1;
}

int main(int count, char **arguments)
{
    static const char log[] = "beacon 212\n"
                              "3 41 Anna\n"
                              "5\n"
                              "6 12\n"
                              "\n"
                              "7 28 Bertrand of the very long name that no object here could hold\n"
                              "9 17 Bertrand\n"
                              "12 9 Cleo\n";
    static _Alignas(16) uint8_t heaps[COPIES][POHELDU_HEAP_BYTES(REGION)];
    static uint8_t metadata[COPIES][POHELDU_METADATA_BYTES(REGION)], reports[COPIES][OUTPUT], agreed[OUTPUT + 1];
    if (count != 1 && count != 1 + 2 * COPIES) {
        fprintf(stderr, "usage: decoder [z w for each of %d copies]\n", COPIES);
        return 2;
    }
    for (int i = 0; i < COPIES; i++) {
        const poheldu_heap h = {heaps[i], sizeof heaps[i], metadata[i], sizeof metadata[i]};
        poheldu_seeds s = poheldu_random_seeds();
        if (count > 1) {
            s.z = noted(arguments[1 + 2 * i]);
            s.w = noted(arguments[2 + 2 * i]);
        }
        if (!open_copy(&h, i, s))
            return 1;
        const struct decoded d = decode(&h, log);
        fprintf(stderr, "copy %d: the last signal lies at %" PRIu32 "\n", i, poheldu_offset(&h, d.signals));
        report_on(&h, d, (char *)reports[i]);
    }
    reports[1][0] = '9'; /* one copy goes wrong */
    const poheldu_verdict v = poheldu_vote(reports[0], sizeof reports, COPIES, OUTPUT, agreed, OUTPUT);
    if (v.number != POHELDU_SERVED) {
        fprintf(stderr, "vote: %s\n", poheldu_name(v.number));
        return 1;
    }
    printf("%u of %d copies agree (mask %u), the first is copy %u\n%s", v.value, COPIES, v.mask, v.replica, agreed);
    return 0;
}
