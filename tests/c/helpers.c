/*
 * The functions with plain arguments, whole votes and the macros of include/poheldu.h. Prints each check that fails,
 * and then exits 1. Written for C11 and C++17 alike. Buffers are allocated at their exact length, for tools that watch
 * reads.
 */
#include <assert.h>
#include <stdint.h>
#include <stdio.h>
#include <stdlib.h>
#include <string.h>

/*
 * The header's functions call watched_serve, which looks at what they lend and passes it on, and watched_getrandom,
 * which gives what a test wants.
 */
#define poheldu_serve watched_serve
#define getrandom watched_getrandom
#include "poheldu.h"
#undef getrandom
#undef poheldu_serve

#ifdef __cplusplus
extern "C"
#endif
    poheldu_answer
    poheldu_serve(uint8_t *heap, size_t heap_len, uint8_t *metadata, size_t metadata_len, const uint8_t *request,
                  size_t request_len, const uint8_t *source, size_t source_len, const uint8_t *page, size_t page_len);

enum { FAILURES_SHOWN = 20 };

/* What clear slots hold: its bytes are all different. */
#define PATTERN 0xB5E3C7A9

static unsigned long checks, failures;

static void expect(int holds, const char *what, int line)
{
    checks++;
    if (holds)
        return;
    printf("%s:%d: not so: %s\n", __FILE__, line, what);
    if (++failures == FAILURES_SHOWN)
        exit(1);
}

#define EXPECT(condition) expect((condition) ? 1 : 0, #condition, __LINE__)

static int is(poheldu_answer a, uint32_t number, uint32_t value)
{
    return a.number == number && a.value == value;
}

/* The source that was lent last. */
static const uint8_t *lent;
static size_t lent_len;

poheldu_answer watched_serve(uint8_t *heap, size_t heap_len, uint8_t *metadata, size_t metadata_len,
                             const uint8_t *request, size_t request_len, const uint8_t *source, size_t source_len,
                             const uint8_t *page, size_t page_len)
{
    const uintptr_t first = (uintptr_t)source, start = (uintptr_t)heap;
    EXPECT(source_len == 0 || heap_len == 0 || first + source_len <= start || start + heap_len <= first);
    EXPECT(page == NULL && page_len == 0);
    lent = source;
    lent_len = source_len;
    return poheldu_serve(heap, heap_len, metadata, metadata_len, request, request_len, source, source_len, page,
                         page_len);
}

/* ---- heaps to try on */

static void *allocated(size_t len)
{
    void *const p = malloc(len + (len == 0));
    if (p == NULL)
        abort();
    return p;
}

static uint32_t random_below(uint32_t bound)
{
    static uint64_t state = 88172645463325252u;
    state ^= state << 13;
    state ^= state >> 7;
    state ^= state << 17;
    return (uint32_t)(state >> 32) % bound;
}

static void fill(uint8_t *bytes, size_t len)
{
    for (size_t i = 0; i < len; i++)
        bytes[i] = (uint8_t)(random_below(16) == 0 ? 0 : 1 + random_below(255));
}

static poheldu_heap opened(size_t region)
{
    const poheldu_seeds seeds = {7, 11};
    poheldu_heap h = {NULL, POHELDU_HEAP_BYTES(region), NULL, POHELDU_METADATA_BYTES(region)};
    h.heap = (uint8_t *)allocated(h.heap_len);
    h.metadata = (uint8_t *)allocated(h.metadata_len);
    fill(h.heap, h.heap_len);
    EXPECT(is(poheldu_open_heap(&h, seeds, PATTERN), POHELDU_SERVED, 0));
    return h;
}

static void closed(poheldu_heap h)
{
    free(h.heap);
    free(h.metadata);
}

/* The byte before a heap: no pointer that C lets a program make by subtraction. */
static uint8_t *before_start(poheldu_heap h)
{
    return (uint8_t *)((uintptr_t)h.heap - 1);
}

static uint8_t *copy_of(const uint8_t *bytes, size_t len)
{
    uint8_t *const copy = (uint8_t *)allocated(len);
    if (len > 0)
        memcpy(copy, bytes, len);
    return copy;
}

static poheldu_heap twin_of(poheldu_heap h)
{
    h.heap = copy_of(h.heap, h.heap_len);
    h.metadata = copy_of(h.metadata, h.metadata_len);
    return h;
}

static int same(poheldu_heap a, poheldu_heap b)
{
    return memcmp(a.heap, b.heap, a.heap_len) == 0 && memcmp(a.metadata, b.metadata, a.metadata_len) == 0;
}

/* ---- copies against poheldu_serve itself, which gets a source elsewhere, on a twin */

static poheldu_answer served_apart(poheldu_heap twin, poheldu_operation operation, size_t offset, const uint8_t *source,
                                   size_t len, uint32_t count)
{
    uint8_t request[POHELDU_REQUEST_BYTES], *const apart = copy_of(source, len);
    poheldu_pack(request, operation, (uint32_t)offset, count);
    const poheldu_answer a = poheldu_serve(twin.heap, twin.heap_len, twin.metadata, twin.metadata_len, request,
                                           sizeof request, apart, len, NULL, 0);
    free(apart);
    return a;
}

static poheldu_answer copied(poheldu_heap h, poheldu_operation operation, size_t offset, const uint8_t *source,
                             size_t len, uint32_t count)
{
    if (operation == POHELDU_COPY_BYTES)
        return random_below(2) ? poheldu_copy_bytes_at(&h, offset, source, len)
                               : poheldu_copy_bytes(&h, poheldu_at(&h, offset), source, len);
    if (operation == POHELDU_COPY_STRING)
        return poheldu_copy_string_at(&h, offset, source, len);
    return poheldu_copy_padded_at(&h, offset, source, len, count);
}

/* The helper's answer and bytes are those of a copy from an equal source elsewhere. */
static void try_copy(poheldu_heap h, poheldu_operation operation, size_t offset, const uint8_t *source, size_t len,
                     uint32_t count)
{
    const poheldu_heap twin = twin_of(h);
    const poheldu_answer want =
        served_apart(twin, operation, offset, source, len, operation == POHELDU_COPY_PADDED ? count : 0);
    const poheldu_answer got = copied(h, operation, offset, source, len, count);
    EXPECT(is(got, want.number, want.value));
    EXPECT(same(h, twin));
    closed(twin);
}

/* The same of the two copies of C strings; bound: how many bytes may be read from the text on. */
static void try_text(poheldu_heap h, size_t offset, const char *text, size_t bound, int padded, uint32_t count)
{
    const poheldu_heap twin = twin_of(h);
    const uint8_t *const source = (const uint8_t *)text;
    void *const to = poheldu_at(&h, offset);
    const poheldu_answer want = padded ? served_apart(twin, POHELDU_COPY_PADDED, offset, source, bound, count)
                                       : served_apart(twin, POHELDU_COPY_STRING, offset, source, bound, 0);
    const poheldu_answer got = padded ? poheldu_copy_padded(&h, to, text, count) : poheldu_copy_string(&h, to, text);
    EXPECT(is(got, want.number, want.value));
    EXPECT(same(h, twin));
    closed(twin);
}

/* Sources in the heap, before it, behind it and over its ends; destinations anywhere in it. */
static void random_copies(void)
{
    enum { BESIDE = 64, ROUNDS = 20000 };
    poheldu_heap h = opened(POHELDU_SMALLEST_REGION);
    uint8_t *const heap = h.heap, *const arena = (uint8_t *)allocated(BESIDE + h.heap_len + BESIDE);
    const size_t arena_len = BESIDE + h.heap_len + BESIDE;
    h.heap = arena + BESIDE;
    free(heap);
    unsigned overlapping = 0;
    for (int round = 0; round < ROUNDS; round++) {
        if (round % 16 == 0)
            fill(arena, arena_len);
        if (round % 4 == 0)
            EXPECT(poheldu_allocate_at(&h, 1 + random_below(512)).number <= POHELDU_CLASS_AT_CAPACITY);
        /* near each other as often as not, and often at the ends */
        const size_t offset = random_below((uint32_t)h.heap_len);
        const size_t near = BESIDE + offset + random_below(2 * BESIDE) - BESIDE;
        const size_t start = random_below(2)   ? near
                             : random_below(4) ? random_below((uint32_t)arena_len)
                                               : random_below(BESIDE);
        const size_t room = arena_len - start, len = random_below(random_below(2) ? 100 : 9000) % (room + 1);
        const poheldu_operation operation = (poheldu_operation)(POHELDU_COPY_BYTES + random_below(3));
        overlapping += start < BESIDE + h.heap_len && start + len > BESIDE;
        try_copy(h, operation, offset, arena + start, len, random_below(200));
        if (arena[start] != 0 && start >= BESIDE && start < BESIDE + h.heap_len)
            try_text(h, offset, (const char *)arena + start, BESIDE + h.heap_len - start, round % 2, random_below(200));
    }
    EXPECT(overlapping > ROUNDS / 4 && overlapping < ROUNDS);
    free(arena);
    free(h.metadata);
}

/* Within one object the source is read before anything is written, in either direction. */
static void copies_within_an_object(void)
{
    const poheldu_heap h = opened(4096);
    char *const p = (char *)poheldu_allocate(&h, 16);
    EXPECT(p != NULL);
    memcpy(p, "abcdefghijklmnop", 16);
    EXPECT(is(poheldu_copy_bytes(&h, p + 2, p, 16), POHELDU_SERVED, 14));
    EXPECT(memcmp(p, "ababcdefghijklmn", 16) == 0);
    EXPECT(is(poheldu_copy_bytes(&h, p, p + 2, 10), POHELDU_SERVED, 10));
    EXPECT(memcmp(p, "abcdefghijijklmn", 16) == 0);
    memcpy(p, "abcdefg\0ijklmnop", 16);
    EXPECT(is(poheldu_copy_string(&h, p + 3, p), POHELDU_SERVED, 8));
    EXPECT(memcmp(p, "abcabcdefg\0lmnop", 16) == 0);
    EXPECT(is(poheldu_copy_string(&h, p, p + 3), POHELDU_SERVED, 8));
    EXPECT(memcmp(p, "abcdefg\0fg\0lmnop", 16) == 0);
    EXPECT(is(poheldu_copy_padded(&h, p + 2, p, 12), POHELDU_SERVED, 12));
    EXPECT(memcmp(p, "ababcdefg\0\0\0\0\0op", 16) == 0);
    memcpy(p, "abcdefghijklmno\0", 16);
    EXPECT(is(poheldu_copy_string(&h, p + 3, p), POHELDU_SERVED, 13));
    EXPECT(memcmp(p, "abcabcdefghijkl\0", 16) == 0);
    memcpy(p, "ababcdefg\0\0\0\0\0op", 16);
    EXPECT(is(poheldu_copy_padded(&h, p, p + 2, 4), POHELDU_SERVED, 4));
    EXPECT(memcmp(p, "abcdcdefg\0\0\0\0\0op", 16) == 0);
    EXPECT(is(poheldu_copy_bytes(&h, p, p, 16), POHELDU_SERVED, 16));
    EXPECT(memcmp(p, "abcdcdefg\0\0\0\0\0op", 16) == 0);
    closed(h);
}

/* A source in the heap longer than any object, with its first zero before, at and after the longest one's end. */
static void long_sources(void)
{
    const poheldu_heap h = opened(65536);
    const size_t len = POHELDU_LARGEST_OBJECT + 4000, source = 16;
    uint8_t *const to = (uint8_t *)poheldu_allocate(&h, POHELDU_LARGEST_OBJECT), *const from = h.heap + source;
    EXPECT(to != NULL && to > from + len);
    const size_t offset = (size_t)(to - h.heap);
    for (size_t zero = POHELDU_LARGEST_OBJECT - 2; zero < POHELDU_LARGEST_OBJECT + 3; zero++)
        for (int operation = POHELDU_COPY_BYTES; operation <= POHELDU_COPY_PADDED; operation++)
            for (size_t into = 0; into < 3; into++) {
                memset(from, 'x', len);
                from[zero] = 0;
                fill(to, POHELDU_LARGEST_OBJECT);
                try_copy(h, (poheldu_operation)operation, offset + into, from, len, 20000);
                try_text(h, offset + into, (const char *)from, len, operation == POHELDU_COPY_PADDED, 20000);
            }
    closed(h);
}

/* A source that shares no byte with the heap is lent as it is. */
static void sources_elsewhere(void)
{
    const poheldu_heap h = opened(1024);
    const size_t len = POHELDU_LARGEST_OBJECT + 1;
    uint8_t *const from = (uint8_t *)allocated(len), *const to = (uint8_t *)poheldu_allocate(&h, 512);
    memset(from, 'x', len);
    EXPECT(is(poheldu_copy_bytes(&h, to, from, len), POHELDU_SERVED, 512) && lent == from && lent_len == len);
    EXPECT(is(poheldu_copy_bytes(&h, to, NULL, 0), POHELDU_SERVED, 0) && lent == NULL && lent_len == 0);
    EXPECT(is(poheldu_copy_string_at(&h, poheldu_offset(&h, to), from, len), POHELDU_SERVED, 512) && lent == from &&
           lent_len == len && to[510] == 'x' && to[511] == 0);
    EXPECT(is(poheldu_copy_padded_at(&h, poheldu_offset(&h, to), from, len, 9), POHELDU_SERVED, 9) && lent == from &&
           lent_len == len);
    EXPECT(is(poheldu_copy_padded_at(&h, poheldu_offset(&h, to), NULL, 0, 9), POHELDU_SERVED, 9) && to[0] == 0 &&
           to[9] == 'x');
    /* up to the first byte of the heap, and from behind its last */
    EXPECT(!poheldu_overlap_(before_start(h), 1, h.heap, h.heap_len));
    EXPECT(poheldu_overlap_(before_start(h), 2, h.heap, h.heap_len));
    EXPECT(!poheldu_overlap_(h.heap + h.heap_len, 4, h.heap, h.heap_len));
    EXPECT(poheldu_overlap_(h.heap + h.heap_len - 1, 1, h.heap, h.heap_len));
    EXPECT(!poheldu_overlap_(h.heap, 0, h.heap, h.heap_len) && !poheldu_overlap_(h.heap, 1, h.heap, 0));
    EXPECT(!poheldu_overlap_(before_start(h), 2, h.heap, 0));
    EXPECT(!poheldu_overlap_(NULL, 0, NULL, 0) && !poheldu_overlap_(NULL, 0, h.heap, h.heap_len));
    free(from);
    closed(h);
}

/* No byte of a text is read after its first zero, nor after the count, nor past the heap's end. */
static void ends_of_texts(void)
{
    const poheldu_heap h = opened(1024);
    char *const p = (char *)poheldu_allocate(&h, 8), *const text = (char *)allocated(5),
                *const end = (char *)h.heap + h.heap_len;
    memcpy(text, "Anna", 5);
    EXPECT(is(poheldu_copy_string(&h, p, text), POHELDU_SERVED, 5) && memcmp(p, "Anna", 5) == 0 && lent_len == 5);
    EXPECT(is(poheldu_copy_padded(&h, p, text, 8), POHELDU_SERVED, 8) && memcmp(p, "Anna\0\0\0\0", 8) == 0);
    memcpy(text, "Cleos", 5);
    EXPECT(is(poheldu_copy_padded(&h, p, text, 5), POHELDU_SERVED, 5) && memcmp(p, "Cleos\0\0\0", 8) == 0);
    EXPECT(is(poheldu_copy_padded(&h, p, NULL, 0), POHELDU_SERVED, 0) && memcmp(p, "Cleos\0\0\0", 8) == 0);
    EXPECT(is(poheldu_copy_string(&h, p, "Bertrand"), POHELDU_SERVED, 8) && memcmp(p, "Bertran", 8) == 0);
    EXPECT(is(poheldu_copy_string(&h, p + 4, "Ann"), POHELDU_SERVED, 4) && memcmp(p, "BertAnn", 8) == 0);
    memcpy(end - 3, "end", 3);
    EXPECT(is(poheldu_copy_string(&h, p, end - 3), POHELDU_SERVED, 3) && memcmp(p, "endtAnn", 8) == 0);
    EXPECT(is(poheldu_copy_padded(&h, p, end - 3, 6), POHELDU_SERVED, 6) && memcmp(p, "end\0\0\0n", 8) == 0);
    char *const longest = (char *)allocated(POHELDU_LARGEST_OBJECT + 1);
    memset(longest, 'x', POHELDU_LARGEST_OBJECT + 1);
    EXPECT(is(poheldu_copy_string(&h, p, longest), POHELDU_SERVED, 8) && memcmp(p, "xxxxxxx", 8) == 0);
    EXPECT(lent_len == POHELDU_LARGEST_OBJECT + 1);
    EXPECT(is(poheldu_copy_padded(&h, p, longest, SIZE_MAX), POHELDU_SERVED, 8));
    free(longest);
    free(text);
    closed(h);
}

/* Names of all lengths, with their zero and without, into an object of 8 bytes: the byte after it stays. */
static void clipped_names(void)
{
    const poheldu_heap h = opened(1024);
    const char letters[] = "ABCDEFGHIJKLMNOPQRST";
    const size_t room = 8;
    char *const p = (char *)poheldu_allocate(&h, room), name[sizeof letters], want[8];
    const char after = p[room];
    for (size_t len = 0; len < sizeof letters; len++)
        for (size_t zero = 0; zero < 2; zero++) {
            const size_t whole = len + zero, written = whole < room ? whole : room;
            memcpy(name, letters, len);
            name[len] = '\0';
            memset(p, 'x', room);
            memset(want, 'x', room);
            memcpy(want, name, written);
            if (whole > room)
                want[room - 1] = '\0';
            EXPECT(is(zero ? poheldu_copy_string(&h, p, name)
                           : poheldu_copy_string_at(&h, poheldu_offset(&h, p), name, len),
                      POHELDU_SERVED, (uint32_t)written));
            EXPECT(memcmp(p, want, room) == 0 && p[room] == after);
            EXPECT(!zero || strlen(p) == (len < room ? len : room - 1));
        }
    closed(h);
}

/* Of a size, a count and an offset above 32 bits nothing is cut; the order of the checks stays. */
static void wide_numbers(void)
{
    const poheldu_heap h = opened(1024), before = twin_of(h);
    const size_t wide = (size_t)UINT32_MAX + 1;
    const size_t sizes[] = {POHELDU_LARGEST_OBJECT + 1, UINT32_MAX, wide, wide + 8, SIZE_MAX};
    for (size_t i = 0; i < sizeof sizes / sizeof *sizes; i++) {
        EXPECT(is(poheldu_allocate_at(&h, sizes[i]), POHELDU_UNSUPPORTED_SIZE, 0));
        EXPECT(poheldu_allocate(&h, sizes[i]) == NULL);
    }
    EXPECT(same(h, before));
    closed(before);

    char *const p = (char *)poheldu_allocate(&h, 8);
    const size_t offset = poheldu_offset(&h, p), counts[] = {UINT32_MAX, wide, wide + 2, SIZE_MAX};
    for (size_t i = 0; i < sizeof counts / sizeof *counts; i++) {
        EXPECT(is(poheldu_copy_padded_at(&h, offset, "ab", 2, counts[i]), POHELDU_SERVED, 8));
        memset(p, 'x', 8);
        EXPECT(is(poheldu_copy_padded(&h, p, "ab", counts[i]), POHELDU_SERVED, 8));
        EXPECT(memcmp(p, "ab\0\0\0\0\0\0", 8) == 0);
        EXPECT(is(poheldu_free_at(&h, counts[i]), POHELDU_OUT_OF_RANGE, 0));
        EXPECT(is(poheldu_remaining_at(&h, counts[i]), POHELDU_OUT_OF_RANGE, 0));
        EXPECT(is(poheldu_copy_bytes_at(&h, counts[i], "ab", 2), POHELDU_OUT_OF_RANGE, 0));
        EXPECT(is(poheldu_copy_string_at(&h, counts[i], "ab", 2), POHELDU_OUT_OF_RANGE, 0));
        EXPECT(poheldu_at(&h, counts[i]) == NULL);
    }
    EXPECT(is(poheldu_free_at(&h, wide + offset), POHELDU_OUT_OF_RANGE, 0));
    EXPECT(is(poheldu_free_at(&h, offset), POHELDU_SERVED, 8));

    const poheldu_heap bad_heap = {h.heap, h.heap_len - 1, h.metadata, h.metadata_len};
    const poheldu_heap bad_metadata = {h.heap, h.heap_len, h.metadata, h.metadata_len - 1};
    EXPECT(is(poheldu_allocate_at(&bad_heap, wide), POHELDU_HEAP_LENGTH, 0));
    EXPECT(is(poheldu_allocate_at(&bad_metadata, wide), POHELDU_METADATA_LENGTH, 0));
    EXPECT(is(poheldu_free_at(&bad_metadata, wide), POHELDU_METADATA_LENGTH, 0));
    closed(h);
}

/* ---- objects by pointer */

/* An object of no bytes is one of 8; null is for a class at capacity. */
static void objects_of_nothing(void)
{
    const poheldu_heap h = opened(1024);
    for (size_t i = 0; i < POHELDU_CAPACITY(1024, 0); i++) {
        char *const p = (char *)poheldu_allocate(&h, 0);
        EXPECT(p != NULL && poheldu_remaining(&h, p) == POHELDU_SLOT_BYTES(0));
        EXPECT(is(poheldu_copy_string(&h, p, ""), POHELDU_SERVED, 1) && *p == '\0');
    }
    EXPECT(is(poheldu_allocate_at(&h, 0), POHELDU_CLASS_AT_CAPACITY, 0) && poheldu_allocate(&h, 0) == NULL);
    closed(h);
}

static void frees(void)
{
    const poheldu_heap h = opened(1024), nowhere = {NULL, 0, NULL, 0};
    char *const p = (char *)poheldu_allocate(&h, 100), *const one = (char *)poheldu_allocate(&h, 8);
    EXPECT(p != NULL && one != NULL && poheldu_at(&h, poheldu_offset(&h, p)) == p);
    const poheldu_heap before = twin_of(h);
    EXPECT(is(poheldu_free(&h, NULL), POHELDU_SERVED, 0));
    EXPECT(is(poheldu_free(&nowhere, NULL), POHELDU_SERVED, 0));
    EXPECT(is(poheldu_free(&h, p + 1), POHELDU_NOT_A_SLOT_START, 0));
    EXPECT(is(poheldu_free(&h, before_start(h)), POHELDU_OUT_OF_RANGE, 0));
    EXPECT(is(poheldu_free(&h, h.heap + h.heap_len), POHELDU_OUT_OF_RANGE, 0));
    EXPECT(is(poheldu_free(&h, h.metadata), POHELDU_OUT_OF_RANGE, 0));
    EXPECT(is(poheldu_free(&nowhere, p), POHELDU_HEAP_LENGTH, 0));
    EXPECT(same(h, before));
    closed(before);
    EXPECT(is(poheldu_free(&h, p), POHELDU_SERVED, 128));
    EXPECT(is(poheldu_free(&h, p), POHELDU_NOT_ALLOCATED, 0));
    EXPECT(is(poheldu_free(&h, one), POHELDU_SERVED, 8));
    closed(h);
}

static void remaining_sizes(void)
{
    const poheldu_heap h = opened(1024);
    char *const p = (char *)poheldu_allocate(&h, 100);
    EXPECT(poheldu_remaining(&h, p) == 128 && poheldu_remaining(&h, p + 100) == 28 &&
           poheldu_remaining(&h, p + 127) == 1);
    EXPECT(poheldu_remaining(&h, NULL) == 0 && poheldu_remaining(&h, before_start(h)) == 0);
    EXPECT(poheldu_remaining(&h, h.heap + h.heap_len) == 0 && poheldu_remaining(&h, h.heap + h.heap_len - 1) == 0);
    EXPECT(is(poheldu_remaining_at(&h, poheldu_offset(&h, p)), POHELDU_SERVED, 128));
    poheldu_free(&h, p);
    EXPECT(poheldu_remaining(&h, p) == 0);
    EXPECT(is(poheldu_copy_bytes(&h, p, "ab", 2), POHELDU_SERVED, 0));
    closed(h);
}

/* A destination outside the heap is refused, whatever the source. */
static void destinations_outside(void)
{
    const poheldu_heap h = opened(1024), before = twin_of(h);
    uint8_t elsewhere[8] = {0};
    void *const outside[] = {NULL, elsewhere, before_start(h), h.heap + h.heap_len, h.metadata};
    for (size_t i = 0; i < sizeof outside / sizeof *outside; i++) {
        EXPECT(poheldu_offset(&h, outside[i]) == UINT32_MAX);
        EXPECT(is(poheldu_copy_bytes(&h, outside[i], "ab", 2), POHELDU_OUT_OF_RANGE, 0));
        EXPECT(is(poheldu_copy_bytes(&h, outside[i], h.heap, 9), POHELDU_OUT_OF_RANGE, 0));
        EXPECT(is(poheldu_copy_string(&h, outside[i], "ab"), POHELDU_OUT_OF_RANGE, 0));
        EXPECT(is(poheldu_copy_padded(&h, outside[i], "ab", 4), POHELDU_OUT_OF_RANGE, 0));
    }
    EXPECT(poheldu_offset(&h, h.heap) == 0 && poheldu_offset(&h, h.heap + h.heap_len - 1) == h.heap_len - 1);
    EXPECT(poheldu_at(&h, 0) == h.heap && poheldu_at(&h, h.heap_len) == NULL);
    EXPECT(elsewhere[0] == 0 && same(h, before));
    closed(before);
    closed(h);
}

/* ---- views */

static int shows(poheldu_view v, const void *bytes, size_t len)
{
    return v.bytes == (const uint8_t *)bytes && v.len == len;
}

/* A view of a part is what the header's example at poheldu_read makes of it. */
static void try_look(poheldu_heap h, uint32_t offset, uint32_t count, const uint8_t *page, size_t page_len)
{
    const poheldu_part r =
        poheldu_read(h.heap, h.heap_len, h.metadata, h.metadata_len, offset, count, page, page_len);
    const uint32_t space = poheldu_remaining_at(&h, offset).value;
    const size_t most = space > 0 ? space : page_len;
    EXPECT(r.number == POHELDU_SERVED && r.value == (count < most ? count : most));
    EXPECT(r.of_page == (space > 0 ? 0 : 1) && r.start == (space > 0 ? offset : 0));
    EXPECT(shows(poheldu_look_at(&h, offset, count, page, page_len), (r.of_page ? page : h.heap) + r.start, r.value));
    EXPECT(shows(poheldu_look(&h, poheldu_at(&h, offset), count, page, page_len), (r.of_page ? page : h.heap) + r.start,
                 r.value));
}

/* Offsets all over a heap with live and freed objects and none; counts around what is left and what the page has. */
static void looks_everywhere(void)
{
    enum { PAGE = 5 };
    const poheldu_heap h = opened(POHELDU_SMALLEST_REGION);
    uint8_t *const page = (uint8_t *)allocated(PAGE);
    for (uint32_t size = 1; size <= 512; size += 3) {
        const poheldu_answer a = poheldu_allocate_at(&h, size);
        if (a.number == POHELDU_SERVED && random_below(4) == 0)
            poheldu_free_at(&h, a.value);
    }
    const poheldu_heap before = twin_of(h);
    unsigned live = 0, others = 0;
    for (uint32_t offset = 0; offset < h.heap_len; offset += 1 + random_below(8)) {
        const uint32_t space = poheldu_remaining_at(&h, offset).value;
        live += space > 0;
        others += space == 0;
        const uint32_t counts[] = {0, 1, PAGE - 1, PAGE, PAGE + 1, space - 1, space, space + 1, UINT32_MAX};
        for (size_t i = 0; i < sizeof counts / sizeof *counts; i++) {
            try_look(h, offset, counts[i], page, PAGE);
            try_look(h, offset, counts[i], h.heap, h.heap_len); /* the page may lie in the heap, and be all of it */
        }
    }
    EXPECT(same(h, before));
    EXPECT(live > 100 && others > 100);
    free(page);
    closed(before);
    closed(h);
}

/* Ends of objects and pages, and what a program sees without a page. */
static void ends_of_views(void)
{
    const poheldu_heap h = opened(1024);
    const char *const p = (const char *)poheldu_allocate(&h, 5), page[] = "withdrawn";
    EXPECT(shows(poheldu_look(&h, p, 5, page, 9), p, 5));
    EXPECT(shows(poheldu_look(&h, p, 9, page, 9), p, 8) && shows(poheldu_look(&h, p + 3, 9, page, 9), p + 3, 5));
    EXPECT(shows(poheldu_look(&h, p, 0, page, 9), p, 0) && shows(poheldu_look(&h, p + 7, 0, NULL, 0), p + 7, 0));
    EXPECT(shows(poheldu_look(&h, p, 4, NULL, 0), p, 4));
    poheldu_free(&h, p);
    EXPECT(shows(poheldu_look(&h, p, 4, page, 9), page, 4) && shows(poheldu_look(&h, p + 7, 4, page, 9), page, 4));
    EXPECT(shows(poheldu_look(&h, p, 20, page, 9), page, 9) && shows(poheldu_look(&h, p, 20, page, 2), page, 2));
    EXPECT(shows(poheldu_look(&h, p, 0, page, 9), page, 0) && shows(poheldu_look(&h, p, 4, page, 0), page, 0));
    EXPECT(shows(poheldu_look(&h, p, 4, NULL, 0), NULL, 0));
    EXPECT(is(poheldu_request(&h, POHELDU_READ, poheldu_offset(&h, p), 4, NULL, 0), POHELDU_SERVED, 0));
    closed(h);
}

/* A view of what is refused is the empty part of the page; of an offset or a count above 32 bits nothing is cut. */
static void views_refused(void)
{
    const poheldu_heap h = opened(1024), nowhere = {NULL, 0, NULL, 0};
    char *const p = (char *)poheldu_allocate(&h, 100);
    const uint32_t offset = poheldu_offset(&h, p);
    const size_t wide = (size_t)UINT32_MAX + 1;
    const char page[] = "withdrawn";
    const poheldu_heap before = twin_of(h), bad_heap = {h.heap, h.heap_len - 1, h.metadata, h.metadata_len},
                       bad_metadata = {h.heap, h.heap_len, h.metadata, h.metadata_len - 1};
    const void *const outside[] = {NULL, page, before_start(h), h.heap + h.heap_len, h.metadata};
    for (size_t i = 0; i < sizeof outside / sizeof *outside; i++) {
        EXPECT(shows(poheldu_look(&h, outside[i], 4, page, 9), page, 0));
        EXPECT(shows(poheldu_look(&h, outside[i], 4, NULL, 0), NULL, 0));
    }
    EXPECT(shows(poheldu_look(&bad_heap, p, 4, page, 9), page, 0));
    EXPECT(shows(poheldu_look(&bad_metadata, p, 4, page, 9), page, 0));
    EXPECT(shows(poheldu_look(&nowhere, p, 4, page, 9), page, 0));
    EXPECT(shows(poheldu_look_at(&h, h.heap_len, 4, page, 9), page, 0));
    EXPECT(shows(poheldu_look_at(&h, wide + offset, 4, page, 9), page, 0));
    EXPECT(shows(poheldu_look_at(&h, SIZE_MAX, 4, page, 9), page, 0));
    const size_t counts[] = {UINT32_MAX, wide, wide + 2, SIZE_MAX};
    for (size_t i = 0; i < sizeof counts / sizeof *counts; i++) {
        EXPECT(shows(poheldu_look(&h, p, counts[i], page, 9), p, 128));
        EXPECT(shows(poheldu_look_at(&h, offset + 100, counts[i], page, 9), p + 100, 28));
        EXPECT(shows(poheldu_look_at(&h, h.heap_len - 1, counts[i], page, 9), page, 9));
    }
    EXPECT(same(h, before));
    closed(before);
    closed(h);
}

/* ---- live counts */

static uint8_t *count_at(poheldu_heap h, size_t c)
{
    return h.metadata + (2 + c) * sizeof(uint32_t);
}

static void set_count(poheldu_heap h, size_t c, uint32_t count)
{
    for (size_t i = 0; i < sizeof count; i++)
        count_at(h, c)[i] = (uint8_t)(count >> 8 * i);
}

/* Each object of a class is counted from its allocation to its free. */
static void counts_of_objects(void)
{
    const poheldu_heap h = opened(4096);
    const size_t half = POHELDU_CAPACITY(4096, 0);
    void *objects[POHELDU_CAPACITY(4096, 0)];
    for (size_t i = 0; i < half; i++) {
        EXPECT(count_at(h, 0)[0] == (uint8_t)i && count_at(h, 0)[1] == i >> 8);
        objects[i] = poheldu_allocate(&h, 8);
    }
    EXPECT(count_at(h, 0)[0] == 0 && count_at(h, 0)[1] == 1 && poheldu_allocate(&h, 8) == NULL);
    for (size_t i = half; i > 0; i--) {
        EXPECT(is(poheldu_free(&h, objects[i - 1]), POHELDU_SERVED, 8));
        EXPECT(is(poheldu_free(&h, objects[i - 1]), POHELDU_NOT_ALLOCATED, 0));
        EXPECT(count_at(h, 0)[0] == (uint8_t)(i - 1) && count_at(h, 0)[1] == (i - 1) >> 8);
    }
    closed(h);
}

/* With the count of any class above half every request is refused, and nothing changes; opening makes it good. */
static void counts_above_half(void)
{
    const poheldu_heap fresh = opened(1024);
    char page[] = "withdrawn";
    const uint32_t offset = poheldu_allocate_at(&fresh, 100).value;
    for (size_t c = 0; c < POHELDU_CLASSES; c++) {
        const uint32_t half = (uint32_t)POHELDU_CAPACITY(1024, c), counts[] = {half + 1, (1u << 31) + half, UINT32_MAX};
        for (size_t i = 0; i < sizeof counts / sizeof *counts; i++) {
            const poheldu_heap h = twin_of(fresh);
            void *const p = poheldu_at(&h, offset);
            set_count(h, c, counts[i]);
            const poheldu_heap before = twin_of(h);
            EXPECT(is(poheldu_allocate_at(&h, 8), POHELDU_CORRUPT_METADATA, 0));
            EXPECT(poheldu_allocate(&h, SIZE_MAX) == NULL);
            EXPECT(is(poheldu_free(&h, p), POHELDU_CORRUPT_METADATA, 0));
            EXPECT(is(poheldu_free(&h, page), POHELDU_CORRUPT_METADATA, 0));
            EXPECT(is(poheldu_free(&h, NULL), POHELDU_SERVED, 0));
            EXPECT(is(poheldu_copy_string(&h, p, "Anna"), POHELDU_CORRUPT_METADATA, 0));
            EXPECT(is(poheldu_request(&h, UINT8_MAX, 0, 0, NULL, 0), POHELDU_CORRUPT_METADATA, 0));
            EXPECT(poheldu_remaining(&h, p) == 0 && shows(poheldu_look(&h, p, 4, page, 9), page, 0));
            EXPECT(is(poheldu_inspect_heap(&h, NULL, 0), POHELDU_CORRUPT_METADATA, 0));
            EXPECT(same(h, before));
            EXPECT(is(poheldu_open(h.heap, h.heap_len, h.metadata, h.metadata_len, 7, 11, PATTERN), POHELDU_SERVED, 0));
            EXPECT(is(poheldu_allocate_at(&h, 100), POHELDU_SERVED, offset));
            closed(before);
            closed(h);
        }
    }
    closed(fresh);
}

/* Counts of at most half are believed until a free or the search for a clear slot finds that they are not so. */
static void counts_believed(void)
{
    const poheldu_heap h = opened(1024);
    void *const p = poheldu_allocate(&h, 8);
    set_count(h, 0, (uint32_t)POHELDU_CAPACITY(1024, 0));
    EXPECT(is(poheldu_allocate_at(&h, 8), POHELDU_CLASS_AT_CAPACITY, 0) && poheldu_remaining(&h, p) == 8);
    set_count(h, 0, 0);
    EXPECT(is(poheldu_free(&h, p), POHELDU_CORRUPT_METADATA, 0) && poheldu_remaining(&h, p) == 8);
    memset(h.metadata + POHELDU_FIELD_BYTES, 0xFF, POHELDU_BITMAP_BYTES(1024, 0));
    const poheldu_heap before = twin_of(h);
    EXPECT(is(poheldu_allocate_at(&h, 8), POHELDU_CORRUPT_METADATA, 0) && poheldu_allocate(&h, 0) == NULL);
    EXPECT(same(h, before));
    EXPECT(is(poheldu_allocate_at(&h, 16385), POHELDU_UNSUPPORTED_SIZE, 0));
    EXPECT(poheldu_allocate(&h, 16) != NULL);
    closed(before);
    closed(h);
}

/* ---- canaries */

static int is_slot(poheldu_slot s, uint32_t size_class, uint32_t number, uint32_t start, uint32_t len)
{
    return s.size_class == size_class && s.number == number && s.start == start && s.len == len;
}

static int is_no_slot(poheldu_slot s)
{
    return is_slot(s, 0, 0, 0, 0);
}

/* Every offset lies in one slot, that of its class and number, or in none where its region is shorter than a slot. */
static void slots_everywhere(void)
{
    const poheldu_heap h = opened(1024);
    size_t starts = 0;
    for (size_t offset = 0; offset < h.heap_len; offset++) {
        const size_t c = offset / 1024, len = POHELDU_SLOT_BYTES(c), number = offset % 1024 / len;
        const poheldu_slot s = poheldu_slot_at(&h, offset), same_slot = poheldu_slot_of(&h, c, number);
        if (len > 1024) {
            EXPECT(is_no_slot(s) && is_no_slot(same_slot));
            continue;
        }
        EXPECT(is_slot(s, (uint32_t)c, (uint32_t)number, (uint32_t)(offset - offset % len), (uint32_t)len));
        EXPECT(is_slot(same_slot, s.size_class, s.number, s.start, s.len));
        starts += s.start == offset;
    }
    EXPECT(starts == poheldu_slot_count(&h) && starts == POHELDU_ALL_SLOTS(1024));
    closed(h);
}

/* What is no slot; heaps and metadata of a length that is refused. */
static void no_slots(void)
{
    const poheldu_heap h = opened(1024), nowhere = {NULL, 0, NULL, 0},
                       cut = {h.heap, h.heap_len - 1, h.metadata, h.metadata_len},
                       wrong = {h.heap, 12 * 1000, h.metadata, h.metadata_len},
                       cut_metadata = {h.heap, h.heap_len, h.metadata, h.metadata_len - 1};
    EXPECT(is_no_slot(poheldu_slot_at(&h, h.heap_len)) && is_no_slot(poheldu_slot_at(&h, SIZE_MAX)));
    EXPECT(is_no_slot(poheldu_slot_at(&h, (size_t)UINT32_MAX + 1)));
    EXPECT(is_no_slot(poheldu_slot_of(&h, 0, 128)) && is_no_slot(poheldu_slot_of(&h, 0, SIZE_MAX)));
    EXPECT(is_no_slot(poheldu_slot_of(&h, 8, 0)) && is_no_slot(poheldu_slot_of(&h, 12, 0)));
    EXPECT(is_no_slot(poheldu_slot_of(&h, SIZE_MAX, 0)) && is_slot(poheldu_slot_of(&h, 7, 0), 7, 0, 7 * 1024, 1024));
    const poheldu_heap none[] = {nowhere, cut, wrong, cut_metadata};
    for (size_t i = 0; i < sizeof none / sizeof *none; i++) {
        EXPECT(poheldu_slot_count(&none[i]) == 0 && poheldu_pattern(&none[i]) == 0);
        EXPECT(is_no_slot(poheldu_slot_at(&none[i], 0)) && is_no_slot(poheldu_slot_of(&none[i], 0, 0)));
        EXPECT(shows(poheldu_stray_bytes(&none[i], poheldu_slot_at(&none[i], 0)), NULL, 0));
        EXPECT(is(poheldu_inspect_heap(&none[i], NULL, 0), i < 3 ? POHELDU_HEAP_LENGTH : POHELDU_METADATA_LENGTH, 0));
    }
    EXPECT(poheldu_pattern(&h) == PATTERN);
    closed(h);
}

/* Opening fills every slot from its first byte on, and leaves what lies outside slots. */
static void opening_fills(void)
{
    poheldu_heap h = opened(1024), before;
    fill(h.heap, h.heap_len);
    before = twin_of(h);
    EXPECT(is(poheldu_open(h.heap, h.heap_len, h.metadata, h.metadata_len, 0, 11, PATTERN), POHELDU_UNUSABLE_SEED, 0));
    EXPECT(same(h, before));
    EXPECT(is(poheldu_open(h.heap, h.heap_len, h.metadata, h.metadata_len, 7, 11, PATTERN), POHELDU_SERVED, 0));
    for (size_t at = 0; at < h.heap_len; at++) {
        const poheldu_slot s = poheldu_slot_at(&h, at);
        EXPECT(h.heap[at] == (s.len > 0 ? (uint8_t)(PATTERN >> (at - s.start) % 4 * 8) : before.heap[at]));
    }
    EXPECT(is(poheldu_inspect_heap(&h, NULL, 0), POHELDU_SERVED, 0));
    closed(before);
    closed(h);
}

/* Opening by the handle is opening by its buffers. */
static void opening_by_handle(void)
{
    const poheldu_seeds seeds[] = {{7, 11}, {0x89ABCDEF, 0x12345678}, {0, 11}, {7, 0}};
    const poheldu_heap one = opened(1024), other = twin_of(one), cut = {one.heap, one.heap_len - 1, one.metadata, 94},
                       cut_metadata = {one.heap, one.heap_len, one.metadata, 93};
    for (size_t i = 0; i < sizeof seeds / sizeof *seeds; i++) {
        const poheldu_answer want = poheldu_open(other.heap, other.heap_len, other.metadata, other.metadata_len,
                                                 seeds[i].z, seeds[i].w, 0x04030201);
        EXPECT(is(poheldu_open_heap(&one, seeds[i], 0x04030201), want.number, want.value) && same(one, other));
    }
    EXPECT(poheldu_pattern(&one) == 0x04030201 && one.metadata[0] == 0xEF && one.metadata[4] == 0x78);
    EXPECT(is(poheldu_open_heap(&cut, seeds[0], 0), POHELDU_HEAP_LENGTH, 0));
    EXPECT(is(poheldu_open_heap(&cut_metadata, seeds[0], 0), POHELDU_METADATA_LENGTH, 0) && same(one, other));
    closed(other);
    closed(one);
}

/* A write past an object and one after a free, in lists of every length; entries past the listed ones are kept. */
static void stray_writes(void)
{
    const poheldu_heap h = opened(4096);
    char *const p = (char *)poheldu_allocate(&h, 16), *const freed = (char *)poheldu_allocate(&h, 8);
    EXPECT(is(poheldu_copy_string(&h, p, "a name that is clipped"), POHELDU_SERVED, 16));
    EXPECT(is(poheldu_free(&h, freed), POHELDU_SERVED, 8) && is(poheldu_inspect_heap(&h, NULL, 0), POHELDU_SERVED, 0));
    memcpy(p, "a name that is not", 18);
    memcpy(freed + 3, "x", 1);
    memcpy(freed + 5, "y", 1);
    const uint32_t after = poheldu_offset(&h, p + 16), gone = poheldu_offset(&h, freed);
    uint32_t list[4];
    for (size_t len = 0; len <= 4; len++) {
        const int fits = len >= 2;
        memset(list, 0xEE, sizeof list);
        EXPECT(is(poheldu_inspect_heap(&h, list, len), fits ? POHELDU_SERVED : POHELDU_LIST_TOO_SHORT, fits ? 2 : 0));
        EXPECT(list[0] == (fits ? gone : 0xEEEEEEEE) && list[1] == (fits ? after : 0xEEEEEEEE));
        EXPECT(list[2] == 0xEEEEEEEE && list[3] == 0xEEEEEEEE);
    }
    EXPECT(shows(poheldu_stray_bytes(&h, poheldu_slot_at(&h, after)), p + 16, 2));
    EXPECT(shows(poheldu_stray_bytes(&h, poheldu_slot_at(&h, gone)), freed + 3, 3));
    EXPECT(shows(poheldu_stray_bytes(&h, poheldu_slot_of(&h, 5, 0)), NULL, 0));
    closed(h);
}

/* A served free fills its slot with the pattern that the metadata have; a refused one fills nothing. */
static void frees_fill(void)
{
    const poheldu_heap h = opened(1024);
    for (size_t size = 1; size <= 512; size *= 2) {
        uint8_t *const p = (uint8_t *)poheldu_allocate(&h, size);
        const poheldu_slot s = poheldu_slot_at(&h, poheldu_offset(&h, p));
        memset(p, 'x', s.len);
        EXPECT(is(poheldu_free(&h, p + 1), POHELDU_NOT_A_SLOT_START, 0) && *p == 'x');
        EXPECT(is(poheldu_free(&h, p), POHELDU_SERVED, s.len) && shows(poheldu_stray_bytes(&h, s), NULL, 0));
        memset(p, 'y', 1);
        EXPECT(is(poheldu_free(&h, p), POHELDU_NOT_ALLOCATED, 0) && shows(poheldu_stray_bytes(&h, s), p, 1));
        memcpy(p, h.heap + s.start + 4, 1);
    }
    const size_t all = poheldu_slot_count(&h);
    uint32_t *const list = (uint32_t *)allocated(all * sizeof *list);
    EXPECT(is(poheldu_inspect_heap(&h, list, all), POHELDU_SERVED, 0));
    h.metadata[POHELDU_PATTERN_AT] ^= 1; /* now no slot holds the pattern */
    EXPECT(is(poheldu_inspect_heap(&h, list, all), POHELDU_SERVED, (uint32_t)all));
    EXPECT(is(poheldu_inspect_heap(&h, list, all - 1), POHELDU_LIST_TOO_SHORT, 0));
    free(list);
    closed(h);
}

/* ---- seeds */

/* What the random source gives next, how many of these there are, and how often it was asked; then it fails. */
static const poheldu_seeds *script;
static size_t script_len, asked;

/* What fails gives no bytes, or not all of them. */
ssize_t watched_getrandom(void *buffer, size_t len, unsigned flags)
{
    static const uint8_t part[] = {1, 2, 3, 4, 5, 6, 7};
    asked++;
    EXPECT(len == sizeof *script && flags == 0);
    if (script_len == 0) {
        memcpy(buffer, part, sizeof part);
        return asked % 2 == 0 ? (ssize_t)sizeof part : -1;
    }
    memcpy(buffer, script, sizeof *script);
    script++;
    script_len--;
    return sizeof *script;
}

/* The seeds drawn from a source that gives so many and then fails. */
static poheldu_seeds drawn_from(const poheldu_seeds *given, size_t count)
{
    script = given;
    script_len = count;
    asked = 0;
    return poheldu_random_seeds();
}

static int are(poheldu_seeds s, uint32_t z, uint32_t w)
{
    return s.z == z && s.w == w;
}

/* Whether seeds are refused: by the header as by the library. */
static int refuses(const poheldu_heap *h, uint32_t z, uint32_t w)
{
    const poheldu_seeds s = {z, w};
    const poheldu_answer a = poheldu_open(h->heap, h->heap_len, h->metadata, h->metadata_len, z, w, PATTERN);
    EXPECT(is(a, poheldu_usable_seeds(s) ? POHELDU_SERVED : POHELDU_UNUSABLE_SEED, 0));
    return a.number != POHELDU_SERVED;
}

/* What freezes in either half, and what lies next to it, in both halves; and seeds from anywhere. */
static void seeds_judged(void)
{
    static const uint32_t middles[] = {0, 0x464FFFFF, 0x8C9FFFFE, 0x9068FFFF, 0xD2EFFFFD};
    const poheldu_heap h = opened(1024);
    int refused = 0;
    for (uint32_t i = 0; i < 15; i++)
        for (uint32_t k = 0; k < 15; k++)
            refused += refuses(&h, middles[i / 3] + i % 3 - 1, middles[k / 3] + k % 3 - 1);
    EXPECT(refused == 2 * 15 + 4 * 15 - 2 * 4); /* two values of z, with any w, and four of w */
    for (int i = 0; i < 1000; i++)
        EXPECT(!refuses(&h, 1 + random_below(UINT32_MAX), 1 + random_below(UINT32_MAX)));
    closed(h);
}

/* Those that would be refused are drawn again; a source that fails, or gives nothing else, gives zeros. */
static void seeds_drawn(void)
{
    static const poheldu_seeds given[] = {{0, 1}, {0x9068FFFF, 1}, {1, 0x8C9FFFFE}, {0x464FFFFF, 0x9068FFFF}},
                               refused[] = {{0, 0}, {1, 0x464FFFFF}, {1, 0xD2EFFFFD}, {0x9068FFFF, 0x8C9FFFFE}, {5, 6}};
    for (size_t skipped = 0; skipped < 4; skipped++) {
        EXPECT(are(drawn_from(given + skipped, 4 - skipped), 0x464FFFFF, 0x9068FFFF) && asked == 4 - skipped);
        EXPECT(are(drawn_from(refused, skipped), 0, 0) && asked == 4);
    }
    EXPECT(are(drawn_from(refused, 5), 0, 0) && asked == 4);
    EXPECT(are(drawn_from(refused + 1, 4), 5, 6) && asked == 4);
}

/* How many of some objects of a size lie elsewhere under another z with the same w. */
static unsigned moved_by_z(size_t region, size_t size)
{
    enum { OBJECTS = 64 };
    const poheldu_seeds one = {0x12345678, 0x9ABCDEF1}, other = {0xFEDCBA98, 0x9ABCDEF1};
    const poheldu_heap h = opened(region);
    uint32_t offsets[OBJECTS];
    unsigned moved = 0;
    EXPECT(is(poheldu_open_heap(&h, one, PATTERN), POHELDU_SERVED, 0));
    for (int i = 0; i < OBJECTS; i++)
        offsets[i] = poheldu_allocate_at(&h, size).value;
    EXPECT(is(poheldu_open_heap(&h, other, PATTERN), POHELDU_SERVED, 0));
    for (int i = 0; i < OBJECTS; i++)
        moved += poheldu_allocate_at(&h, size).value != offsets[i];
    closed(h);
    return moved;
}

/* The other half alone places nothing elsewhere, but for the smallest objects in the longest regions. */
static void seeds_by_half(void)
{
    EXPECT(moved_by_z(POHELDU_SMALLEST_REGION, 8) == 0 && moved_by_z(65536, 8) == 0);
    EXPECT(moved_by_z(POHELDU_LARGEST_REGION / 2, 8) == 0 && moved_by_z(POHELDU_LARGEST_REGION, 9) == 0);
    EXPECT(moved_by_z(POHELDU_LARGEST_REGION, 8) > 0);
}

/* ---- whole votes */

enum { BLOCK = 4096, LONGEST_OUTPUT = 1048576, BEHIND = 5, UNWRITTEN = 0xEE };

/* Replicas' outputs, and a buffer for the winner with some room behind; before: what both held before the call. */
typedef struct {
    size_t replicas, length, outputs_len, output_len;
    uint8_t *outputs, *output, *outputs_before, *output_before;
} whole_vote;

static whole_vote prepared(size_t replicas, size_t length)
{
    whole_vote v = {replicas, length, replicas * length, length + BEHIND, NULL, NULL, NULL, NULL};
    v.outputs = (uint8_t *)allocated(v.outputs_len);
    v.output = (uint8_t *)allocated(v.output_len);
    memset(v.outputs, 'a', v.outputs_len);
    memset(v.output, UNWRITTEN, v.output_len);
    return v;
}

static void done(whole_vote v)
{
    free(v.outputs);
    free(v.output);
    free(v.outputs_before);
    free(v.output_before);
}

static uint8_t *output_of(whole_vote v, size_t replica)
{
    return v.outputs + replica * v.length;
}

static poheldu_verdict held(whole_vote *v)
{
    free(v->outputs_before);
    free(v->output_before);
    v->outputs_before = copy_of(v->outputs, v->outputs_len);
    v->output_before = copy_of(v->output, v->output_len);
    return poheldu_vote_whole(v->outputs, v->outputs_len, v->replicas, v->length, v->output, v->output_len);
}

static int is_verdict(poheldu_verdict v, uint32_t number, uint32_t mask, uint32_t value, uint32_t replica)
{
    return v.number == number && v.mask == mask && v.value == value && v.replica == replica;
}

/* Whether the vote wrote to the front of its output alone, so many bytes at most. */
static int wrote_at_most(const whole_vote *v, size_t len)
{
    return memcmp(v->outputs, v->outputs_before, v->outputs_len) == 0 &&
           memcmp(v->output + len, v->output_before + len, v->output_len - len) == 0;
}

/* Outputs as words, one for each replica: each letter fills a block, the last one a block of so many bytes. */
static whole_vote spelt(const char *words, size_t last)
{
    const size_t blocks = strcspn(words, " "), replicas = (strlen(words) + 1) / (blocks + 1);
    const whole_vote v = prepared(replicas, (blocks - 1) * BLOCK + last);
    for (size_t r = 0; r < replicas; r++)
        for (size_t b = 0; b < blocks; b++)
            memset(output_of(v, r) + b * BLOCK, words[r * (blocks + 1) + b], b + 1 < blocks ? (size_t)BLOCK : last);
    return v;
}

/* A vote on such outputs; written: the blocks that it writes, as letters. */
static void try_words(const char *words, uint32_t number, uint32_t mask, uint32_t value, uint32_t replica,
                      const char *written)
{
    const size_t lasts[] = {1, 2, BLOCK - 1, BLOCK};
    for (size_t i = 0; i < sizeof lasts / sizeof *lasts; i++) {
        whole_vote v = spelt(words, lasts[i]);
        const size_t blocks = strlen(written), whole = blocks * BLOCK, len = whole < v.length ? whole : v.length;
        size_t at = 0;
        EXPECT(is_verdict(held(&v), number, mask, value, replica));
        while (at < len && v.output[at] == (uint8_t)written[at / BLOCK])
            at++;
        EXPECT(at == len && wrote_at_most(&v, len));
        done(v);
    }
}

static void whole_votes(void)
{
    try_words("a a a", POHELDU_SERVED, 7, 3, 0, "a");
    try_words("b a a", POHELDU_SERVED, 6, 2, 1, "a");
    try_words("x b a a b", POHELDU_SERVED, 18, 2, 1, "b"); /* of those tied, the one that comes first */
    try_words("abc abc abc abc", POHELDU_SERVED, 15, 4, 0, "abc");
    try_words("a a a a a a a a a a a a a a a a", POHELDU_SERVED, 65535, 16, 0, "a");
    /* who is out stays out, and counts for nothing: neither for those left nor against them */
    try_words("ab ab cb", POHELDU_SERVED, 3, 2, 0, "ab");
    try_words("cb ab ab", POHELDU_SERVED, 6, 2, 1, "ab");
    try_words("aab aab bcb aab", POHELDU_SERVED, 11, 3, 0, "aab");
    try_words("ad ab ab bd bd", POHELDU_SERVED, 6, 2, 1, "ab");
    /* two that are left can still split */
    try_words("aab aac bbb", POHELDU_NO_AGREEMENT, 0, 2, 0, "aa");
    try_words("aa ab ba", POHELDU_NO_AGREEMENT, 0, 1, 0, "a");
    try_words("abc acc add", POHELDU_NO_AGREEMENT, 0, 1, 0, "a");
    try_words("a b c", POHELDU_NO_AGREEMENT, 0, 0, 0, "");
    try_words("ax bx cx", POHELDU_NO_AGREEMENT, 0, 0, 0, "");
    /* what more than half have wins; what most have need not, as the header says */
    try_words("yq xp yq xp xp", POHELDU_SERVED, 26, 3, 1, "xp");
    try_words("xp xp xp yq yq yr ys", POHELDU_SERVED, 24, 2, 3, "yq");
    try_words("yq yr xp xp", POHELDU_NO_AGREEMENT, 0, 1, 0, "y");
}

/* The longest outputs: the last byte of the last block decides, and that block has number 255. */
static void longest_whole_votes(void)
{
    const size_t most[] = {3, 16};
    for (size_t i = 0; i < 2; i++) {
        const uint32_t replicas = (uint32_t)most[i], all = (1u << replicas) - 1;
        whole_vote v = prepared(replicas, LONGEST_OUTPUT);
        EXPECT(is_verdict(held(&v), POHELDU_SERVED, all, replicas, 0));
        EXPECT(wrote_at_most(&v, LONGEST_OUTPUT) && memcmp(v.output, v.outputs, LONGEST_OUTPUT) == 0);
        output_of(v, 0)[LONGEST_OUTPUT - 1] = 'b';
        EXPECT(is_verdict(held(&v), POHELDU_SERVED, all - 1, replicas - 1, 1));
        EXPECT(wrote_at_most(&v, LONGEST_OUTPUT) && v.output[LONGEST_OUTPUT - 1] == 'a');
        for (uint32_t r = 0; r < replicas; r++)
            output_of(v, r)[LONGEST_OUTPUT - 1] = (uint8_t)r;
        memset(v.output, UNWRITTEN, v.output_len);
        EXPECT(is_verdict(held(&v), POHELDU_NO_AGREEMENT, 0, 255, 0));
        EXPECT(wrote_at_most(&v, LONGEST_OUTPUT - BLOCK) && memcmp(v.output, v.outputs, LONGEST_OUTPUT - BLOCK) == 0);
        done(v);
    }
}

/* Whether a vote on outputs of which no two are alike is refused for what is lent, not for that. Nothing changes. */
static int refuses_outputs(size_t replicas, size_t length, size_t outputs_len, size_t output_len)
{
    uint8_t *const outputs = (uint8_t *)allocated(outputs_len), *const output = (uint8_t *)allocated(output_len);
    for (size_t i = 0; i < outputs_len; i++)
        outputs[i] = (uint8_t)i;
    memset(output, UNWRITTEN, output_len);
    uint8_t *const outputs_before = copy_of(outputs, outputs_len), *const before = copy_of(output, output_len);
    const poheldu_verdict v = poheldu_vote_whole(outputs, outputs_len, replicas, length, output, output_len);
    EXPECT(memcmp(outputs, outputs_before, outputs_len) == 0 && memcmp(output, before, output_len) == 0);
    EXPECT(is_verdict(v, v.number == POHELDU_NO_AGREEMENT ? POHELDU_NO_AGREEMENT : POHELDU_INVALID_OUTPUTS, 0, 0, 0));
    free(before);
    free(outputs_before);
    free(output);
    free(outputs);
    return v.number == POHELDU_INVALID_OUTPUTS;
}

static void whole_votes_refused(void)
{
    const size_t wraps = SIZE_MAX / 4 + 1; /* four times that is 0 */
    for (size_t replicas = 0; replicas <= 20; replicas++)
        for (size_t length = 0; length <= 3; length++)
            EXPECT(refuses_outputs(replicas, length, replicas * length, 3) ==
                   (replicas < 3 || replicas > 16 || length < 1));
    for (size_t replicas = 2; replicas <= 17; replicas++) {
        EXPECT(refuses_outputs(replicas, LONGEST_OUTPUT + 1, replicas, LONGEST_OUTPUT + 1));
        EXPECT(refuses_outputs(replicas, 7, replicas * 7 - 1, 7) && refuses_outputs(replicas, 7, replicas * 7 + 1, 7));
        EXPECT(refuses_outputs(replicas, 7, replicas * 7, 6) && refuses_outputs(replicas, 7, replicas * 7, 0));
        EXPECT(refuses_outputs(replicas, 7, 7, 7) && refuses_outputs(replicas, 7, 0, 7));
    }
    EXPECT(refuses_outputs(3, LONGEST_OUTPUT + 1, 3 * (LONGEST_OUTPUT + 1), LONGEST_OUTPUT + 1));
    EXPECT(refuses_outputs(3, BLOCK + 1, 3 * (BLOCK + 1), BLOCK)); /* room for a block, and not for all */
    EXPECT(refuses_outputs(3, SIZE_MAX, 3, 3) && refuses_outputs(SIZE_MAX, 3, 3, 3));
    EXPECT(refuses_outputs(4, wraps, 0, 3) && refuses_outputs(wraps, 4, 0, 4));
    EXPECT(is_verdict(poheldu_vote_whole(NULL, 0, 3, 1, NULL, 0), POHELDU_INVALID_OUTPUTS, 0, 0, 0));
    EXPECT(is_verdict(poheldu_vote_whole(NULL, 0, 0, 0, NULL, 0), POHELDU_INVALID_OUTPUTS, 0, 0, 0));
    EXPECT(strcmp(poheldu_name(POHELDU_INVALID_OUTPUTS), "invalid outputs") == 0 && POHELDU_INVALID_OUTPUTS == 15);
}

/* The mask of the replicas whose output is this one, and how many they are. */
static uint32_t sharers(const whole_vote *v, const uint8_t *output, uint32_t *count)
{
    uint32_t mask = 0;
    *count = 0;
    for (size_t r = 0; r < v->replicas; r++)
        if (memcmp(output_of(*v, r), output, v->length) == 0) {
            mask |= 1u << r;
            ++*count;
        }
    return mask;
}

/* Of outputs that differ in a few bytes: those left share what is written, nobody else does, and a majority wins. */
static void random_whole_votes(void)
{
    enum { ROUNDS = 400, BLOCKS = 3 };
    unsigned served = 0, majorities = 0, blocks_written = 0;
    for (int round = 0; round < ROUNDS; round++) {
        const uint32_t near = BLOCK * random_below(BLOCKS) + random_below(3);
        const size_t length = near > 1 ? near - 1 : 1 + random_below(BLOCKS * BLOCK);
        whole_vote v = prepared(3 + random_below(14), length);
        for (uint32_t bytes = random_below(12); bytes > 0; bytes--) {
            const uint32_t at = random_below((uint32_t)length), first = random_below((uint32_t)v.replicas);
            for (size_t r = first; r < v.replicas; r += 1 + random_below(4))
                output_of(v, r)[random_below(4) == 0 ? length - 1 : at] = (uint8_t)('b' + random_below(3));
        }
        const poheldu_verdict won = held(&v);
        uint32_t count;
        const uint8_t *majority = NULL;
        for (size_t r = 0; r < v.replicas; r++) {
            sharers(&v, output_of(v, r), &count);
            majority = 2 * count > v.replicas ? output_of(v, r) : majority;
        }
        EXPECT(majority == NULL || (won.number == POHELDU_SERVED && memcmp(v.output, majority, length) == 0));
        if (won.number == POHELDU_SERVED) {
            const uint32_t mask = sharers(&v, v.output, &count);
            EXPECT(wrote_at_most(&v, length) && won.mask == mask && won.value == count && count >= 2);
            EXPECT((won.mask >> won.replica & 1) == 1 && (won.mask & ((1u << won.replica) - 1)) == 0);
        } else {
            const size_t written = (size_t)won.value * BLOCK;
            EXPECT(is_verdict(won, POHELDU_NO_AGREEMENT, 0, won.value, 0) && written < length);
            EXPECT(wrote_at_most(&v, written));
            blocks_written += won.value;
        }
        served += won.number == POHELDU_SERVED;
        majorities += majority != NULL;
        done(v);
    }
    EXPECT(majorities > ROUNDS / 10 && served > majorities + ROUNDS / 10);
    EXPECT(served < ROUNDS - ROUNDS / 10 && blocks_written > ROUNDS / 10);
}

/* ---- macros */

typedef uint8_t heap_array[POHELDU_HEAP_BYTES(1024)], metadata_array[POHELDU_METADATA_BYTES(1 << 12)];
static_assert(sizeof(heap_array) == 12 * 1024, "twelve regions");
static_assert(POHELDU_METADATA_BYTES(1024) == 94 && sizeof(metadata_array) == 190, "as the rules have it");
static_assert(POHELDU_METADATA_BYTES(1048576) == 32820 && POHELDU_LARGEST_OBJECT == 16384, "as the rules have it");
static_assert(POHELDU_PATTERN_AT == 56 && POHELDU_FIELD_BYTES == 60, "as the rules have it");
static_assert(POHELDU_ALL_SLOTS(1024) == 255 && POHELDU_ALL_SLOTS(1048576) == 262080, "128 to 1, 131,072 to 64");
static_assert(POHELDU_HEAP_BYTES(1000) == 0 && POHELDU_METADATA_BYTES(1000) == 0, "no region");
static_assert(POHELDU_ALL_SLOTS(1000) == 0, "no region");

static void macros(void)
{
    int regions = 0;
    for (size_t region = 1; region <= (size_t)1 << 22; region *= 2)
        for (size_t beside = region - 1; beside <= region + 1; beside++) {
            const size_t heap_len = POHELDU_CLASSES * beside, metadata_len = poheldu_metadata_length(heap_len);
            EXPECT(POHELDU_METADATA_BYTES(beside) == metadata_len);
            EXPECT(POHELDU_HEAP_BYTES(beside) == (metadata_len > 0 ? heap_len : 0));
            size_t slots = 0;
            for (size_t c = 0; c < POHELDU_CLASSES && metadata_len > 0; c++)
                slots += POHELDU_SLOTS(beside, c);
            EXPECT(POHELDU_ALL_SLOTS(beside) == slots);
            regions += metadata_len > 0;
        }
    EXPECT(regions == 11);
    char version[32];
    snprintf(version, sizeof version, "%d.%d.%d", POHELDU_VERSION_MAJOR, POHELDU_VERSION_MINOR, POHELDU_VERSION_PATCH);
    EXPECT(strcmp(version, POHELDU_VERSION) == 0);
    EXPECT(poheldu_interface() == POHELDU_INTERFACE);
}

int main(void)
{
    setvbuf(stdout, NULL, _IOLBF, 0);
    macros();
    wide_numbers();
    objects_of_nothing();
    frees();
    remaining_sizes();
    ends_of_views();
    views_refused();
    counts_of_objects();
    counts_above_half();
    counts_believed();
    slots_everywhere();
    no_slots();
    opening_fills();
    opening_by_handle();
    stray_writes();
    frees_fill();
    seeds_judged();
    seeds_drawn();
    seeds_by_half();
    looks_everywhere();
    destinations_outside();
    ends_of_texts();
    clipped_names();
    sources_elsewhere();
    copies_within_an_object();
    long_sources();
    random_copies();
    whole_votes();
    longest_whole_votes();
    whole_votes_refused();
    random_whole_votes();
    printf("%lu checks, %lu failed\n", checks, failures);
    return failures > 0;
}
