/*
 * The instructors' viewer: prints the objects of a decoder's heap where they lie, without a copy. The decoder withdraws
 * a signal of its search log and keeps the pointer to it. The viewer does not ask which one that is: where an object is
 * freed it is shown a page instead, and never what the heap holds there. Where objects lie makes no difference to it:
 * the seeds are new ones, or two noted ones as arguments.
 */
#include "poheldu.h"

#include <ctype.h>
#include <inttypes.h>
#include <stdio.h>
#include <stdlib.h>
#include <string.h>

enum { REGION = 1024, SIGNALS = 4, TEXT = 64, WANTED = 40 };

/* Of its bytes none is a character: where an object is longer than its text, they show as dots. */
#define PATTERN 0xB5E3C7A9

/* One signal of the log. */
struct signal {
    unsigned minute, metres;
    const char *name;
};

/* The decoder: a signal's text as an object of its own, as long as the text; null where the heap has no room for it. */
static char *decode(const poheldu_heap *h, struct signal s)
{
    char text[TEXT];
    snprintf(text, sizeof text, "minute %u, %u m: %s", s.minute, s.metres, s.name);
    char *const object = poheldu_allocate(h, strlen(text) + 1);
    poheldu_copy_string(h, object, text); /* to null: refused, and nothing is written */
    return object;
}

/* The viewer: up to WANTED bytes from a pointer on. The object may have fewer; what is no character shows as a dot. */
static void show(const poheldu_heap *h, const char *from)
{
    static const char page[] = "[signal withdrawn]";
    const poheldu_view v = poheldu_look(h, from, WANTED, page, strlen(page));
    printf("%2zu bytes: ", v.len);
    for (size_t i = 0; i < v.len; i++)
        putchar(isprint(v.bytes[i]) ? v.bytes[i] : '.');
    putchar('\n');
}

/* A half of noted seeds, as it was printed; 0, which opening refuses, where it is no such number. */
static uint32_t noted(const char *text)
{
    char *end;
    const unsigned long half = strtoul(text, &end, 16);
    return *end == '\0' && half <= UINT32_MAX ? (uint32_t)half : 0;
}

/* Opens a heap with new seeds, or with two noted ones, and says on standard error which; 0 where that is refused. */
static int open_heap(const poheldu_heap *h, int count, char **arguments)
{
    poheldu_seeds s = poheldu_random_seeds();
    if (count != 1 && count != 3) {
        fprintf(stderr, "usage: %s [z w]\n", arguments[0]);
        return 0;
    }
    if (count == 3) {
        s.z = noted(arguments[1]);
        s.w = noted(arguments[2]);
    }
    const poheldu_answer opened = poheldu_open_heap(h, s, PATTERN);
    if (opened.number != POHELDU_SERVED) {
        fprintf(stderr, "opening: %s\n", poheldu_name(opened.number));
        return 0;
    }
    fprintf(stderr, "seeds %08" PRIx32 " %08" PRIx32 "\n", s.z, s.w);
    return 1;
}

int main(int count, char **arguments)
{
    static const struct signal log[SIGNALS] = {
        {3, 41, "Anna"}, {7, 28, "Bertrand of the very long name"}, {9, 17, "Cleo"}, {12, 9, "Dora, first seen"}};
    static _Alignas(16) uint8_t heap[POHELDU_HEAP_BYTES(REGION)];
    static uint8_t metadata[POHELDU_METADATA_BYTES(REGION)];
    const poheldu_heap h = {heap, sizeof heap, metadata, sizeof metadata};
    if (!open_heap(&h, count, arguments))
        return 1;
    char *signals[SIGNALS];
    for (int i = 0; i < SIGNALS; i++) {
        signals[i] = decode(&h, log[i]);
        if (signals[i] == NULL)
            return 1;
    }
    poheldu_free(&h, signals[2]); /* withdrawn; the heap holds the pattern there */
    for (int i = 0; i < SIGNALS; i++)
        show(&h, signals[i]);
    show(&h, signals[0] + strlen("minute 3, 41 m: ")); /* from the name on */
    return 0;
}
