/*
 * The service engineers' inspection of a decoder that writes where it has no object. It copies names without a look at
 * their length, past the end of their objects, and corrects a signal that it has withdrawn, after the free of its
 * object. Nothing of that shows in what it decodes. But clear slots hold a pattern: the inspection finds those that do
 * not any more, and the program names them, with what was written there, and draws a map of the heap. The seeds are new
 * ones, or two noted ones as arguments, with which all lies where it lay.
 */
#include "poheldu.h"

#include <ctype.h>
#include <inttypes.h>
#include <stdio.h>
#include <stdlib.h>
#include <string.h>

enum { REGION = 4096, SIGNALS = 12, WITHDRAWN = 4, NAME = 16, SHOWN = 16, WIDTH = 64 };

/* What clear slots hold: nothing that a decoder is likely to write. */
#define PATTERN 0xB5E3C7A9

/* One signal of the log, and how many points its track has. */
struct signal {
    uint32_t minute, metres;
    const char *name;
    size_t points;
};

/* What the decoder keeps of a signal: an object for each. */
struct place {
    uint32_t minute, metres;
};

struct point {
    uint32_t east, north;
};

struct decoded {
    struct place *place;
    char *name;
    struct point *track;
};

/* What an inspection found, in a list that is never too short. */
struct found {
    uint32_t slots[POHELDU_ALL_SLOTS(REGION)];
    uint32_t count;
};

/* ---- the decoder */

/* Decodes a signal; 0 where the heap has no room for it. */
static int decode(const poheldu_heap *h, struct signal s, struct decoded *d)
{
    d->place = poheldu_allocate(h, sizeof *d->place);
    d->name = poheldu_allocate(h, NAME);
    d->track = poheldu_allocate(h, s.points * sizeof *d->track);
    if (d->place == NULL || d->name == NULL || d->track == NULL)
        return 0;
    d->place->minute = s.minute;
    d->place->metres = s.metres;
    strcpy(d->name, s.name); /* the first fault: poheldu_copy_string would end where the object does */
    memset(d->track, 0, s.points * sizeof *d->track);
    return 1;
}

static void withdraw(const poheldu_heap *h, struct decoded d)
{
    poheldu_free(h, d.place);
    poheldu_free(h, d.name);
    poheldu_free(h, d.track);
}

/* ---- the engineers' program */

static int is_live(const poheldu_heap *h, poheldu_slot s)
{
    return poheldu_remaining_at(h, s.start).value > 0;
}

static int is_found(const struct found *found, poheldu_slot s)
{
    for (uint32_t i = 0; i < found->count; i++)
        if (found->slots[i] == s.start)
            return 1;
    return 0;
}

/* The first SHOWN bytes of what was written, as numbers and as characters. */
static void show(poheldu_view v)
{
    const size_t shown = v.len < SHOWN ? v.len : SHOWN;
    printf("   ");
    for (size_t i = 0; i < shown; i++)
        printf(" %02x", v.bytes[i]);
    printf("  ");
    for (size_t i = 0; i < shown; i++)
        putchar(isprint(v.bytes[i]) ? v.bytes[i] : '.');
    printf("\n");
}

/*
 * A slot that was written to. Where the slot that has the byte before it is live, its object is the first to suspect:
 * that may be the last of the class before.
 */
static void name_slot(const poheldu_heap *h, poheldu_slot s)
{
    const poheldu_view stray = poheldu_stray_bytes(h, s);
    const size_t first = (size_t)(stray.bytes - h->heap) - s.start;
    const poheldu_slot before = poheldu_slot_at(h, (size_t)s.start - 1); /* none before the first */
    printf("class %u, slot %u (%u bytes at %u): bytes %zu to %zu, ", s.size_class, s.number, s.len, s.start, first,
           first + stray.len - 1);
    if (before.len > 0 && is_live(h, before))
        printf("behind the object of class %u at %u\n", before.size_class, before.start);
    else
        printf("behind no object\n");
    show(stray);
}

/* The character for some neighbouring slots of a class. */
static char mark(const poheldu_heap *h, const struct found *found, uint32_t size_class, uint32_t first, uint32_t count)
{
    uint32_t live = 0;
    for (uint32_t i = first; i < first + count; i++) {
        const poheldu_slot s = poheldu_slot_of(h, size_class, i);
        if (is_found(found, s))
            return '!';
        live += is_live(h, s) ? 1 : 0;
    }
    return live == 0 ? '.' : live < count ? '+' : '#';
}

/* A row for each class that has slots; where it has more than WIDTH, a character stands for several. */
static void draw(const poheldu_heap *h, const struct found *found)
{
    printf("\nmap: . clear  + some live  # live  ! written to\nbytes  slots to a character\n");
    for (uint32_t c = 0; c < POHELDU_CLASSES; c++) {
        const uint32_t slots = (uint32_t)POHELDU_SLOTS(REGION, c), each = slots > WIDTH ? slots / WIDTH : 1;
        if (slots == 0)
            continue;
        printf("%5u %6u |", (unsigned)POHELDU_SLOT_BYTES(c), each);
        for (uint32_t i = 0; i < slots; i += each)
            putchar(mark(h, found, c, i, each));
        printf("|\n");
    }
}

/* Inspects the heap and says what was found; 0 where that is refused. */
static int inspect(const poheldu_heap *h)
{
    static struct found found;
    const poheldu_answer a = poheldu_inspect_heap(h, found.slots, POHELDU_ALL_SLOTS(REGION));
    if (a.number != POHELDU_SERVED) {
        fprintf(stderr, "inspection: %s\n", poheldu_name(a.number));
        return 0;
    }
    found.count = a.value;
    printf("%u of %zu slots hold no object and were written to\n", found.count, poheldu_slot_count(h));
    for (uint32_t i = 0; i < found.count; i++)
        name_slot(h, poheldu_slot_at(h, found.slots[i]));
    draw(h, &found);
    return 1;
}

/* A half of noted seeds, as it was printed; 0, which opening refuses, where it is no such number. */
static uint32_t noted(const char *text)
{
    char *end;
    const unsigned long half = strtoul(text, &end, 16);
    return *end == '\0' && half <= UINT32_MAX ? (uint32_t)half : 0;
}

/* Opens a heap with new seeds, or with two noted ones, and says on standard error which; 0 where that is refused. */
static int open_heap(const poheldu_heap *h, int count, char **arguments)
{
    poheldu_seeds s = poheldu_random_seeds();
    if (count != 1 && count != 3) {
        fprintf(stderr, "usage: %s [z w]\n", arguments[0]);
        return 0;
    }
    if (count == 3) {
        s.z = noted(arguments[1]);
        s.w = noted(arguments[2]);
    }
    const poheldu_answer opened = poheldu_open_heap(h, s, PATTERN);
    if (opened.number != POHELDU_SERVED) {
        fprintf(stderr, "opening: %s\n", poheldu_name(opened.number));
        return 0;
    }
    fprintf(stderr, "seeds %08" PRIx32 " %08" PRIx32 "\n", s.z, s.w);
    return 1;
}

int main(int count, char **arguments)
{
    static const struct signal log[SIGNALS] = {
        {3, 41, "Anna", 3},   {5, 33, "Bertrand of the very long name", 30},
        {7, 28, "Cleo", 12},  {8, 20, "Dora", 50},
        {9, 17, "Emil", 1},   {11, 12, "Frieda", 25},
        {12, 9, "Gustav", 7}, {14, 9, "Maximilian Gross", 4}, /* as long as its object, without its zero */
        {15, 8, "Ida", 100},  {17, 7, "Jakob", 2},
        {18, 5, "Klara", 6},  {21, 2, "Ludwig", 15}};
    static _Alignas(16) uint8_t heap[POHELDU_HEAP_BYTES(REGION)];
    static uint8_t metadata[POHELDU_METADATA_BYTES(REGION)];
    const poheldu_heap h = {heap, sizeof heap, metadata, sizeof metadata};
    if (!open_heap(&h, count, arguments))
        return 1;
    struct decoded signals[SIGNALS];
    for (int i = 0; i < SIGNALS; i++)
        if (!decode(&h, log[i], &signals[i]))
            return 1;
    withdraw(&h, signals[WITHDRAWN]);
    signals[WITHDRAWN].place->metres = 18; /* the second fault */
    return inspect(&h) ? 0 : 1;
}
