#include "calls.h"

#include "second.h"

#include <inttypes.h>
#include <stdio.h>
#include <stdlib.h>
#include <string.h>

enum { NUMBERS = POHELDU_INVALID_OUTPUTS + 1, OPERATIONS = 7, CLASSES = 12 };

/* Inspections that are told apart: by what they list, by what their list lacks, and those refused for a count. */
enum { NOTHING, WITH_ROOM, JUST_ENOUGH, ONE_TOO_FEW, FEWER, CORRUPT, INSPECTIONS };

/* Lookups that are told apart: where lengths are refused; by class and number, where there is such a slot and where not; by an offset. */
enum { UNKNOWN, NUMBERED, NOT_NUMBERED, AT_START, FURTHER_ON, IN_NONE, LOOKUPS };

/* Seeds that are told apart: those refused for a half, and those served with what is frozen in the other half. */
enum { ZERO_Z, ZERO_W, FROZEN_Z, FROZEN_W, EXCHANGED = FROZEN_W + 3, SEEDS };

/* Whole votes that are told apart: by the block that finds no agreement; those served, by who is left and by how their outputs end. */
enum { SPLIT_FIRST, SPLIT_LATER, TWO_LEFT, AGREES_AGAIN, SHORT_LAST, ONE_BYTE_LAST, WHOLE_BLOCKS, WHOLES };

static struct {
    uint64_t numbers[NUMBERS];   /* answers, by refusal number */
    uint64_t served[OPERATIONS]; /* served requests, by operation */
    uint64_t requests, walks;    /* walks: allocations that took another slot than the last one drawn */
    uint64_t of_nothing;         /* served allocations of 0 bytes */
    uint64_t strings[4];         /* strings copied: shorter than the space, as long with a zero, as long without, longer */
    uint64_t corrupt[3];         /* corrupt metadata: a count above half, no clear slot, a free by a count of 0 */
    uint64_t shown[2][2];        /* reads served, by of_page and by whether the part has a byte */
    uint64_t inspected[INSPECTIONS];
    uint64_t seeds[SEEDS]; /* openings of right lengths */
    uint64_t lookups[LOOKUPS];
    uint64_t named[2]; /* served votes that name replica 0, and another one */
    uint64_t wholes[WHOLES];
} seen;

/* ---- differences */

/* The buffers of a call. */
typedef struct {
    const twin *const *of;
    size_t count;
} buffers;

#define BUFFERS(...) ((buffers){(const twin *const[]){__VA_ARGS__}, sizeof((const twin *const[]){__VA_ARGS__}) / sizeof(twin *)})

static bool all_equal(buffers lent)
{
    bool equal = true;
    for (size_t i = 0; i < lent.count; i++)
        equal = equal && twin_equal(lent.of[i]);
    return equal;
}

static void show_bytes(const twin *t)
{
    const size_t most = 160;
    fprintf(stderr, "%s after the call, %zu bytes:", t->name, t->len);
    for (size_t i = 0; i < t->len && i < most; i++)
        fprintf(stderr, " %02x", t->ours[t->start + i]);
    fprintf(stderr, "%s\n", t->len > most ? " .." : "");
}

/* What was said of the difference is on standard error already; the buffers come after it. */
static _Noreturn void stop(buffers lent)
{
    for (size_t i = 0; i < lent.count; i++) {
        show_bytes(lent.of[i]);
        twin_show_difference(lent.of[i]);
    }
    abort();
}

static void require_same(poheldu_answer ours, poheldu_answer theirs, const char *call, buffers lent)
{
    if (ours.number == theirs.number && ours.value == theirs.value && all_equal(lent))
        return;
    fprintf(stderr, "difference at %s: library answers %" PRIu32 ", value %" PRIu32 "; second implementation %" PRIu32 ", value %" PRIu32 "\n", call,
            ours.number, ours.value, theirs.number, theirs.value);
    stop(lent);
}

/* The second implementation cannot write what it reads: equal buffers are unchanged ones. */
static void require_same_part(poheldu_part ours, poheldu_part theirs, buffers lent)
{
    if (ours.number == theirs.number && ours.value == theirs.value && ours.of_page == theirs.of_page && ours.start == theirs.start && all_equal(lent))
        return;
    fprintf(stderr, "difference at a read: library answers %" PRIu32 ", value %" PRIu32 ", of_page %" PRIu32 ", start %" PRIu32, ours.number,
            ours.value, ours.of_page, ours.start);
    fprintf(stderr, "; second implementation %" PRIu32 ", value %" PRIu32 ", of_page %" PRIu32 ", start %" PRIu32 "\n", theirs.number, theirs.value,
            theirs.of_page, theirs.start);
    stop(lent);
}

static void require_same_verdict(poheldu_verdict ours, poheldu_verdict theirs, const char *call, buffers lent)
{
    if (ours.number == theirs.number && ours.mask == theirs.mask && ours.value == theirs.value && ours.replica == theirs.replica && all_equal(lent))
        return;
    fprintf(stderr, "difference at %s: library answers %" PRIu32 ", mask %" PRIx32 ", value %" PRIu32 ", replica %" PRIu32, call, ours.number,
            ours.mask, ours.value, ours.replica);
    fprintf(stderr, "; second implementation %" PRIu32 ", mask %" PRIx32 ", value %" PRIu32 ", replica %" PRIu32 "\n", theirs.number, theirs.mask,
            theirs.value, theirs.replica);
    stop(lent);
}

/* ---- counts */

/* The metadata still show the last draw. Regions here have at most 65,536 slots, so that the low half of w alone chooses. */
static bool was_walk(lent_heap h, uint32_t offset)
{
    const uint8_t *const metadata = twin_ours(h.metadata);
    const size_t region = h.heap->len / CLASSES, slot_size = (size_t)8 << offset / region;
    const size_t drawn = (metadata[4] | (size_t)metadata[5] << 8) % (region / slot_size);
    return drawn != offset % region / slot_size;
}

static uint32_t word_at(const twin *t, size_t at)
{
    const uint8_t *const bytes = twin_ours(t) + at;
    return bytes[0] | (uint32_t)bytes[1] << 8 | (uint32_t)bytes[2] << 16 | (uint32_t)bytes[3] << 24;
}

/* A refusal changes no byte, so that the metadata still show its reason. */
static void count_corrupt(lent_heap h, const twin *request)
{
    size_t above = 0;
    for (size_t class = 0; class < CLASSES; class++)
        above += word_at(h.metadata, 8 + 4 * class) > h.heap->len / CLASSES / ((size_t)8 << class) / 2;
    seen.corrupt[above > 0 ? 0 : twin_ours(request)[0] == POHELDU_ALLOCATE ? 1 : 2]++;
}

/* A string where nothing is live counts for none. */
static void count_string(lent_heap h, uint32_t offset, const twin *source)
{
    const twin *const heap = h.heap, *const metadata = h.metadata;
    const size_t space =
        poheldu_read(twin_ours(heap), heap->len, twin_ours(metadata), metadata->len, offset, UINT32_MAX, NULL, 0).value;
    const uint8_t *const zero = source->len > 0 ? memchr(twin_ours(source), 0, source->len) : NULL;
    const size_t length = zero != NULL ? (size_t)(zero - twin_ours(source)) + 1 : source->len;
    if (space > 0)
        seen.strings[length < space ? 0 : length > space ? 3 : zero != NULL ? 1 : 2]++;
}

static void count_served(lent_heap h, const twin *request, const twin *source, uint32_t value)
{
    const uint8_t operation = twin_ours(request)[0];
    const uint32_t argument = word_at(request, 4);
    seen.served[operation]++;
    if (operation == POHELDU_COPY_STRING)
        count_string(h, argument, source);
    if (operation != POHELDU_ALLOCATE)
        return;
    seen.walks += was_walk(h, value);
    seen.of_nothing += argument == 0;
}

static void count_seeds(poheldu_answer a, poheldu_seeds seeds)
{
    const bool judged = a.number == POHELDU_SERVED || a.number == POHELDU_UNUSABLE_SEED;
    bool exchanged = seeds.w == frozen_z;
    for (int i = 0; i < 3; i++) {
        seen.seeds[FROZEN_W + i] += judged && seeds.w == frozen_w[i];
        exchanged = exchanged || seeds.z == frozen_w[i];
    }
    seen.seeds[ZERO_Z] += judged && seeds.z == 0;
    seen.seeds[ZERO_W] += judged && seeds.w == 0;
    seen.seeds[FROZEN_Z] += judged && seeds.z == frozen_z;
    seen.seeds[EXCHANGED] += exchanged && a.number == POHELDU_SERVED;
}

static void count_inspection(poheldu_answer a, size_t list_len, size_t hits)
{
    if (a.number == POHELDU_SERVED)
        seen.inspected[hits == 0 ? NOTHING : list_len > hits ? WITH_ROOM : JUST_ENOUGH]++;
    else if (a.number == POHELDU_LIST_TOO_SHORT)
        seen.inspected[list_len + 1 == hits ? ONE_TOO_FEW : FEWER]++;
    else if (a.number == POHELDU_CORRUPT_METADATA)
        seen.inspected[CORRUPT]++;
}

/* A replica that is not left differs somewhere, though not in the last block where it agrees with what was written. */
static bool agrees_again(uint32_t left, const twin *outputs, size_t length, const twin *output)
{
    const size_t last = (length - 1) / BLOCK * BLOCK;
    const uint8_t *const written = twin_ours(output) + last;
    bool again = false;
    for (size_t replica = 0, at = last; at < outputs->len; replica++, at += length)
        again = again || ((left >> replica & 1) == 0 && memcmp(twin_ours(outputs) + at, written, length - last) == 0);
    return again;
}

static void count_whole(poheldu_verdict v, const twin *outputs, size_t length, const twin *output)
{
    const size_t last = length % BLOCK;
    seen.wholes[TWO_LEFT] += v.value == 2;
    if (length <= BLOCK)
        return;
    seen.wholes[last == 0 ? WHOLE_BLOCKS : last == 1 ? ONE_BYTE_LAST : SHORT_LAST]++;
    seen.wholes[AGREES_AGAIN] += agrees_again(v.mask, outputs, length, output);
}

bool calls_saw_all(void)
{
    bool all = seen.walks > 0 && seen.of_nothing > 0;
    for (int i = 0; i < NUMBERS; i++)
        all = all && seen.numbers[i] > 0;
    for (int i = 0; i < OPERATIONS; i++)
        all = all && seen.served[i] > 0;
    for (int i = 0; i < 4; i++)
        all = all && seen.strings[i] > 0;
    for (int i = 0; i < 3; i++)
        all = all && seen.corrupt[i] > 0;
    for (int i = 0; i < 2; i++)
        all = all && seen.shown[i][0] > 0 && seen.shown[i][1] > 0;
    for (int i = 0; i < INSPECTIONS; i++)
        all = all && seen.inspected[i] > 0;
    for (int i = 0; i < SEEDS; i++)
        all = all && seen.seeds[i] > 0;
    for (int i = 0; i < LOOKUPS; i++)
        all = all && seen.lookups[i] > 0;
    for (int i = 0; i < 2; i++)
        all = all && seen.named[i] > 0;
    for (int i = 0; i < WHOLES; i++)
        all = all && seen.wholes[i] > 0;
    return all;
}

static void report_wholes(void)
{
    const uint64_t *const wholes = seen.wholes;
    fprintf(stderr, "fuzz: whole votes without agreement in block 0: %" PRIu64 ", in a later one: %" PRIu64, wholes[SPLIT_FIRST],
            wholes[SPLIT_LATER]);
    fprintf(stderr, "; that leave two: %" PRIu64 ", where one that was out agrees again: %" PRIu64, wholes[TWO_LEFT], wholes[AGREES_AGAIN]);
    fprintf(stderr, "; with a short last block: %" PRIu64 ", of one byte: %" PRIu64 ", of whole blocks: %" PRIu64 "\n", wholes[SHORT_LAST],
            wholes[ONE_BYTE_LAST], wholes[WHOLE_BLOCKS]);
}

void calls_report(void)
{
    uint64_t calls = 0;
    for (int i = 0; i < NUMBERS; i++) {
        fprintf(stderr, "fuzz: answer %2d %-18s %12" PRIu64 "\n", i, poheldu_name((uint32_t)i), seen.numbers[i]);
        calls += seen.numbers[i];
    }
    fprintf(stderr, "fuzz: served by operation:");
    for (int i = 0; i < OPERATIONS; i++)
        fprintf(stderr, " %" PRIu64, seen.served[i]);
    fprintf(stderr, "; allocations by the walk: %" PRIu64 ", of 0 bytes: %" PRIu64 "\n", seen.walks, seen.of_nothing);
    fprintf(stderr, "fuzz: strings shorter than the space: %" PRIu64 ", as long with a zero: %" PRIu64, seen.strings[0], seen.strings[1]);
    fprintf(stderr, ", without: %" PRIu64 ", longer: %" PRIu64 "\n", seen.strings[2], seen.strings[3]);
    fprintf(stderr, "fuzz: corrupt metadata, a count above half: %" PRIu64 ", no clear slot: %" PRIu64, seen.corrupt[0],
            seen.corrupt[1]);
    fprintf(stderr, ", a free by a count of 0: %" PRIu64 "\n", seen.corrupt[2]);
    fprintf(stderr, "fuzz: parts shown of the heap: %" PRIu64 ", empty %" PRIu64 "; of the page: %" PRIu64 ", empty %" PRIu64 "\n", seen.shown[0][1],
            seen.shown[0][0], seen.shown[1][1], seen.shown[1][0]);
    fprintf(stderr, "fuzz: inspections that list nothing: %" PRIu64 ", with room to spare: %" PRIu64 ", just enough: %" PRIu64,
            seen.inspected[NOTHING], seen.inspected[WITH_ROOM], seen.inspected[JUST_ENOUGH]);
    fprintf(stderr, ", one too few: %" PRIu64 ", fewer: %" PRIu64 ", corrupt metadata: %" PRIu64 "\n", seen.inspected[ONE_TOO_FEW],
            seen.inspected[FEWER], seen.inspected[CORRUPT]);
    fprintf(stderr, "fuzz: openings with z zero: %" PRIu64 ", w zero: %" PRIu64 ", z frozen: %" PRIu64, seen.seeds[ZERO_Z], seen.seeds[ZERO_W],
            seen.seeds[FROZEN_Z]);
    fprintf(stderr, ", w frozen: %" PRIu64 " %" PRIu64 " %" PRIu64 "; served with what is frozen in the other half: %" PRIu64 "\n",
            seen.seeds[FROZEN_W], seen.seeds[FROZEN_W + 1], seen.seeds[FROZEN_W + 2], seen.seeds[EXCHANGED]);
    fprintf(stderr, "fuzz: lookups where lengths are refused: %" PRIu64 "; by number: %" PRIu64 ", of none: %" PRIu64, seen.lookups[UNKNOWN],
            seen.lookups[NUMBERED], seen.lookups[NOT_NUMBERED]);
    fprintf(stderr, "; at a slot's start: %" PRIu64 ", further on: %" PRIu64 ", in none: %" PRIu64 "\n", seen.lookups[AT_START],
            seen.lookups[FURTHER_ON], seen.lookups[IN_NONE]);
    fprintf(stderr, "fuzz: votes that name replica 0: %" PRIu64 ", another one: %" PRIu64 "\n", seen.named[0], seen.named[1]);
    report_wholes();
    fprintf(stderr, "fuzz: %" PRIu64 " calls, %" PRIu64 " of them requests\n", calls, seen.requests);
}

/* ---- the calls */

poheldu_answer call_open(lent_heap h, poheldu_seeds seeds, uint32_t pattern)
{
    const uint32_t z = seeds.z, w = seeds.w;
    const twin *const heap = h.heap, *const metadata = h.metadata;
    const poheldu_answer ours = poheldu_open(twin_ours(heap), heap->len, twin_ours(metadata), metadata->len, z, w, pattern);
    const poheldu_answer theirs = reference_open(twin_theirs(heap), heap->len, twin_theirs(metadata), metadata->len, z, w, pattern);
    require_same(ours, theirs, "an opening", BUFFERS(heap, metadata));
    seen.numbers[ours.number]++;
    count_seeds(ours, seeds);
    return ours;
}

poheldu_answer call_serve(lent_heap h, const twin *request, const twin *source, const twin *page)
{
    const twin *const heap = h.heap, *const metadata = h.metadata;
    const poheldu_answer ours = poheldu_serve(twin_ours(heap), heap->len, twin_ours(metadata), metadata->len, twin_ours(request), request->len,
                                              twin_ours(source), source->len, twin_ours(page), page->len);
    const poheldu_answer theirs = reference_serve(twin_theirs(heap), heap->len, twin_theirs(metadata), metadata->len, twin_theirs(request),
                                                  request->len, twin_theirs(source), source->len, twin_theirs(page), page->len);
    require_same(ours, theirs, "a request", BUFFERS(heap, metadata, request, source, page));
    seen.numbers[ours.number]++;
    seen.requests++;
    if (ours.number == POHELDU_SERVED)
        count_served(h, request, source, ours.value);
    if (ours.number == POHELDU_CORRUPT_METADATA)
        count_corrupt(h, request);
    return ours;
}

void call_read(lent_heap h, uint32_t offset, uint32_t count, const twin *page)
{
    const twin *const heap = h.heap, *const metadata = h.metadata;
    const poheldu_part ours =
        poheldu_read(twin_ours(heap), heap->len, twin_ours(metadata), metadata->len, offset, count, twin_ours(page), page->len);
    const poheldu_part theirs =
        reference_read(twin_theirs(heap), heap->len, twin_theirs(metadata), metadata->len, offset, count, twin_theirs(page), page->len);
    require_same_part(ours, theirs, BUFFERS(heap, metadata, page));
    seen.numbers[ours.number]++;
    if (ours.number == POHELDU_SERVED)
        seen.shown[ours.of_page > 0][ours.value > 0]++;
}

uint32_t hits_of(lent_heap h)
{
    static uint32_t all[MOST_LISTED];
    return reference_inspect(twin_theirs(h.heap), h.heap->len, twin_theirs(h.metadata), h.metadata->len, all, MOST_LISTED).value;
}

poheldu_answer call_inspect(lent_heap h, const twin *list)
{
    const twin *const heap = h.heap, *const metadata = h.metadata;
    const size_t list_len = list->len / sizeof(uint32_t);
    const uint32_t hits = hits_of(h);
    const poheldu_answer ours =
        poheldu_inspect(twin_ours(heap), heap->len, twin_ours(metadata), metadata->len, (void *)twin_ours(list), list_len);
    const poheldu_answer theirs =
        reference_inspect(twin_theirs(heap), heap->len, twin_theirs(metadata), metadata->len, (void *)twin_theirs(list), list_len);
    require_same(ours, theirs, "an inspection", BUFFERS(heap, metadata, list));
    seen.numbers[ours.number]++;
    count_inspection(ours, list_len, hits);
    return ours;
}

void call_vote(const twin *blocks, size_t replicas, size_t block_len, const twin *output)
{
    const poheldu_verdict ours = poheldu_vote(twin_ours(blocks), blocks->len, replicas, block_len, twin_ours(output), output->len);
    const poheldu_verdict theirs = reference_vote(twin_theirs(blocks), blocks->len, replicas, block_len, twin_theirs(output), output->len);
    require_same_verdict(ours, theirs, "a vote", BUFFERS(blocks, output));
    seen.numbers[ours.number]++;
    if (ours.number == POHELDU_SERVED)
        seen.named[ours.replica > 0]++;
}

void call_vote_whole(const twin *outputs, size_t replicas, size_t length, const twin *output)
{
    const poheldu_verdict ours = poheldu_vote_whole(twin_ours(outputs), outputs->len, replicas, length, twin_ours(output), output->len);
    const poheldu_verdict theirs = reference_vote_whole(twin_theirs(outputs), outputs->len, replicas, length, twin_theirs(output), output->len);
    require_same_verdict(ours, theirs, "a whole vote", BUFFERS(outputs, output));
    seen.numbers[ours.number]++;
    if (ours.number == POHELDU_NO_AGREEMENT)
        seen.wholes[ours.value == 0 ? SPLIT_FIRST : SPLIT_LATER]++;
    if (ours.number == POHELDU_SERVED)
        count_whole(ours, outputs, length, output);
}

void call_metadata_length(size_t heap_len)
{
    const size_t ours = poheldu_metadata_length(heap_len), theirs = reference_metadata_length(heap_len);
    if (ours == theirs)
        return;
    fprintf(stderr, "difference at the metadata's length for %zu: library %zu, second implementation %zu\n", heap_len, ours, theirs);
    abort();
}

/* ---- lookups */

static bool same_slot(poheldu_slot a, poheldu_slot b)
{
    return a.size_class == b.size_class && a.number == b.number && a.start == b.start && a.len == b.len;
}

static void require_same_slot(poheldu_slot ours, poheldu_slot theirs, const char *call, const twin *metadata)
{
    if (same_slot(ours, theirs) && twin_equal(metadata))
        return;
    fprintf(stderr, "difference at %s: library answers class %" PRIu32 ", number %" PRIu32 ", start %" PRIu32 ", len %" PRIu32, call,
            ours.size_class, ours.number, ours.start, ours.len);
    fprintf(stderr, "; second implementation %" PRIu32 ", %" PRIu32 ", %" PRIu32 ", %" PRIu32 "\n", theirs.size_class, theirs.number,
            theirs.start, theirs.len);
    stop(BUFFERS(metadata));
}

static void require_same_size(size_t ours, size_t theirs, const char *call, const twin *metadata)
{
    if (ours == theirs && twin_equal(metadata))
        return;
    fprintf(stderr, "difference at %s: library answers %zu, second implementation %zu\n", call, ours, theirs);
    stop(BUFFERS(metadata));
}

static void count_lookups(bool known, poheldu_slot numbered, poheldu_slot found, uint32_t offset)
{
    if (!known) {
        seen.lookups[UNKNOWN]++;
        return;
    }
    seen.lookups[numbered.len > 0 ? NUMBERED : NOT_NUMBERED]++;
    seen.lookups[found.len == 0 ? IN_NONE : found.start == offset ? AT_START : FURTHER_ON]++;
}

void call_lookups(lent_heap h, uint32_t size_class, uint32_t number, uint32_t offset)
{
    const twin *const metadata = h.metadata;
    const size_t heap_len = h.heap->len, len = metadata->len;
    const uint8_t *const ours = twin_ours(metadata), *const theirs = twin_theirs(metadata);
    const poheldu_slot numbered = poheldu_nth_slot(heap_len, ours, len, size_class, number), found = poheldu_find_slot(heap_len, ours, len, offset);
    const size_t all = poheldu_count_slots(heap_len, ours, len);
    require_same_slot(numbered, reference_nth_slot(heap_len, theirs, len, size_class, number), "a slot by its number", metadata);
    require_same_slot(found, reference_find_slot(heap_len, theirs, len, offset), "a slot by an offset", metadata);
    require_same_size(all, reference_count_slots(heap_len, theirs, len), "the number of slots", metadata);
    require_same_size(poheldu_stored_pattern(heap_len, ours, len), reference_stored_pattern(heap_len, theirs, len), "the pattern", metadata);
    count_lookups(all > 0, numbered, found, offset);
}
