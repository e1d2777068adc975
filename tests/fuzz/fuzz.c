/*
 * An input is a list of choices: a heap, its metadata, and a run of calls on it, most of them such as a program makes and some of them such as an
 * attacker would. Each is held against the second implementation (calls.h). For clang's libFuzzer, or the main of driver.c.
 */
#define _DEFAULT_SOURCE /* stat, clock_gettime */
#include "run.h"

#include <stdio.h>
#include <stdlib.h>
#include <sys/stat.h>
#include <time.h>
#include <unistd.h>

enum { REGIONS = 4, SECONDS_TO_SEE_ALL = 30 };

/* Short regions fill sooner, and comparing them takes less time; the differential test has all eleven lengths. */
static const size_t region_lengths[REGIONS] = {1024, 4096, 2048, LONGEST_REGION};

static struct {
    twin heaps[REGIONS], metadata[REGIONS];
    twin request, source, page, blocks, output, list, outputs, whole;
} made;

/* ---- steps */

size_t any_huge(choices *c)
{
    static const size_t huge[] = {(size_t)1 << 32, ((size_t)1 << 32) + 3, (size_t)1 << 62, (size_t)1 << 63, SIZE_MAX - 1, SIZE_MAX};
    return PICK(c, huge);
}

static void any_metadata_length(choices *c)
{
    switch (below(c, 4)) {
    case 0:
        call_metadata_length(any_huge(c));
        break;
    case 1:
        call_metadata_length(next_word(c));
        break;
    default:
        call_metadata_length(around(c, (size_t)CLASSES << (8 + below(c, 16)))); /* 10 to 20 are allowed */
    }
}

static void cut_or_stretch(choices *c, twin *t)
{
    static const size_t steps[] = {1, 2, 3, 4, 8, 12};
    const size_t step = PICK(c, steps);
    switch (below(c, 6)) {
    case 0:
        twin_lend(t, t->len + step);
        break;
    case 1:
        twin_lend(t, t->len / step / 2);
        break;
    case 2:
        twin_lend(t, 0);
        break;
    default:
        twin_lend(t, t->len - step);
    }
}

/* One call whose heap, metadata or both have another length: seeds, request or offset may be wrong too, and what is refused first shows. */
static void wrong_lengths(run *r)
{
    const size_t heap_len = r->lent.heap->len, metadata_len = r->lent.metadata->len;
    const uint32_t which = below(&r->input, 4);
    if (which != 1)
        cut_or_stretch(&r->input, r->lent.metadata);
    if (which == 1 || which == 2)
        cut_or_stretch(&r->input, r->lent.heap);
    const uint32_t call = below(&r->input, 4);
    if (call == 0)
        serve_any(r);
    else if (call == 1)
        open_any(r);
    else if (call == 2)
        read_any(r);
    else
        inspect_any(r);
    look_up_any(r);
    twin_lend(r->lent.heap, heap_len);
    twin_lend(r->lent.metadata, metadata_len);
}

/* To the class's capacity, or close to it. */
static void fill_class(run *r)
{
    const uint32_t class = below(&r->input, CLASSES), half = slots(r, class) / 2, most = half < 64 ? half : 64;
    allocate_some(r, class, 1 + below(&r->input, most + 1));
}

static void step(run *r)
{
    switch (below(&r->input, 32)) {
    case 0:
        open_any(r);
        break;
    case 1:
        damage_metadata(r);
        break;
    case 2:
        wrong_lengths(r);
        break;
    case 3:
        any_metadata_length(&r->input);
        break;
    case 4:
        fill_class(r);
        break;
    case 5:
        allocate_some(r, set_trap(r), 2);
        break;
    case 6:
    case 7:
    case 8:
        vote_any(r);
        break;
    case 9:
    case 10:
        read_any(r);
        break;
    case 11:
        scribble(r);
        break;
    case 12:
        inspect_any(r);
        break;
    case 13:
        look_up_any(r);
        break;
    case 14:
        vote_whole_any(r);
        break;
    default:
        serve_any(r);
    }
}

/* ---- a run */

static void make_buffers(void)
{
    for (int i = 0; i < REGIONS; i++) {
        const size_t heap_len = CLASSES * region_lengths[i];
        made.heaps[i] = twin_new("heap", heap_len);
        made.metadata[i] = twin_new("metadata", poheldu_metadata_length(heap_len));
    }
    made.request = twin_new("request", LONGEST_REQUEST);
    made.source = twin_new("source", LONGEST_SOURCE);
    made.page = twin_new("page", LONGEST_PAGE);
    made.blocks = twin_new("blocks", MOST_REPLICAS * LONGEST_BLOCK);
    made.output = twin_new("output", LONGEST_BLOCK + SPARE_OUTPUT);
    made.list = twin_new("list", LONGEST_LIST * sizeof(uint32_t));
    made.outputs = twin_new("whole outputs", MOST_REPLICAS * LONGEST_WHOLE);
    made.whole = twin_new("whole output", LONGEST_WHOLE + SPARE_OUTPUT);
}

/* At which end of its room each buffer lies. */
static void place(twin *t, bool at_end, size_t len)
{
    t->at_end = at_end;
    twin_lend(t, len);
}

static run new_run(const uint8_t *data, size_t size)
{
    static const uint8_t often[] = {0, 0, 0, 1, 1, 1, 2, 3};
    choices input = {data, data + size};
    const uint8_t which = PICK(&input, often), ends = next_byte(&input);
    const size_t region = region_lengths[which];
    place(&made.heaps[which], (ends & 1) == 0, CLASSES * region);
    place(&made.metadata[which], (ends & 2) == 0, poheldu_metadata_length(CLASSES * region));
    place(&made.request, (ends & 4) == 0, 0);
    place(&made.source, (ends & 8) == 0, 0);
    place(&made.blocks, (ends & 16) == 0, 0);
    place(&made.output, (ends & 32) == 0, 0);
    place(&made.outputs, (ends & 16) == 0, 0);
    place(&made.whole, (ends & 32) == 0, 0);
    place(&made.page, (ends & 64) == 0, 0);
    place(&made.list, (ends & 128) == 0, 0);
    return (run){.input = input,
                 .region = region,
                 .lent = {&made.heaps[which], &made.metadata[which]},
                 .request = &made.request,
                 .source = &made.source,
                 .page = &made.page,
                 .blocks = &made.blocks,
                 .output = &made.output,
                 .list = &made.list,
                 .outputs = &made.outputs,
                 .whole = &made.whole};
}

static void run_all(run *r)
{
    twin_fill(r->lent.heap, 0);
    twin_fill(r->lent.metadata, 0);
    if (below(&r->input, 3) == 2)
        foreign_metadata(r);
    else
        open_any(r);
    while (r->input.at < r->input.end)
        step(r);
}

/* ---- what a fuzzer calls */

static time_t started;
static bool repeats;

static time_t seconds(void)
{
    struct timespec now;
    clock_gettime(CLOCK_MONOTONIC, &now);
    return now.tv_sec;
}

static void require_all(const char *when)
{
    if (repeats || calls_saw_all())
        return;
    calls_report();
    fprintf(stderr, "fuzz: FAILED: what has a count of 0 above did not come %s\n", when);
    _exit(1);
}

static void finish(void)
{
    require_all("in this run");
    calls_report();
}

/* A file among the arguments is an input to be repeated, which need not see all. */
int LLVMFuzzerInitialize(int *argc, char ***argv)
{
    struct stat file;
    for (int i = 1; i < *argc; i++)
        repeats = repeats || (stat((*argv)[i], &file) == 0 && S_ISREG(file.st_mode));
    started = seconds();
    make_buffers();
    return atexit(finish);
}

int LLVMFuzzerTestOneInput(const uint8_t *data, size_t size)
{
    run r = new_run(data, size);
    run_all(&r);
    if (seconds() - started > SECONDS_TO_SEE_ALL)
        require_all("in the first 30 seconds");
    return 0;
}
