#include "run.h"

enum { REQUEST_LEN = 16 };

static uint32_t any_size(choices *c)
{
    static const uint32_t classes[] = {0, 0, 1, 1, 2, 3, 4, 4, 5, 6, 6, 7, 8, 9, 10, 11};
    static const uint32_t edges[] = {0, LARGEST_SIZE, LARGEST_SIZE + 1, 65536, 1u << 31, UINT32_MAX};
    const uint32_t size = slot_size(PICK(c, classes));
    switch (below(c, 10)) {
    case 0:
        return size - 1;
    case 1:
        return size + 1;
    case 2:
        return size / 2 + 1;
    case 3:
        return below(c, LARGEST_SIZE);
    case 4:
        return PICK(c, edges);
    default:
        return size;
    }
}

/* ---- offsets */

/* The start of a slot, its inside, its end, or one past either. */
static uint32_t near_slot(run *r, uint32_t start)
{
    const uint32_t class = start / (uint32_t)r->region, size = slot_size(class);
    switch (below(&r->input, 12)) {
    case 0:
        return start + 1;
    case 1:
        return start + size - 1;
    case 2:
        return start + size;
    case 3:
        return start + below(&r->input, size);
    case 4:
        return start - 1;
    default:
        return start;
    }
}

/* The start of a slot, or of a region without slots. */
static uint32_t any_slot(run *r)
{
    const uint32_t class = below(&r->input, CLASSES), region = (uint32_t)r->region;
    return class * region + below(&r->input, region) / slot_size(class) * slot_size(class);
}

static uint32_t remembered_slot(run *r)
{
    const size_t remembered = r->allocations < REMEMBERED ? r->allocations : REMEMBERED;
    return remembered == 0 ? any_slot(r) : r->allocated[below(&r->input, (uint32_t)remembered)];
}

uint32_t any_offset(run *r)
{
    const uint32_t region = (uint32_t)r->region, kind = below(&r->input, 16);
    switch (kind) {
    case 0:
        return next_word(&r->input);
    case 1:
        return (uint32_t)around(&r->input, CLASSES * region);
    case 2:
        return (uint32_t)around(&r->input, below(&r->input, CLASSES) * region);
    case 3:
    case 4:
    case 5:
        return near_slot(r, any_slot(r));
    default:
        return near_slot(r, remembered_slot(r));
    }
}

/* ---- what a copy takes */

static uint32_t any_count(choices *c)
{
    static const uint32_t edges[] = {0, 1, 65536, 1u << 31, UINT32_MAX};
    switch (below(c, 4)) {
    case 0:
        return PICK(c, edges);
    case 1:
        return (uint32_t)around(c, slot_size(below(c, CLASSES)));
    default:
        return below(c, 64);
    }
}

/* Bytes from an offset to the end of its slot; past the regions' end those of the longest. */
uint32_t left_in_slot(const run *r, uint32_t offset)
{
    const uint32_t class = offset / (uint32_t)r->region, size = slot_size(class < CLASSES ? class : CLASSES - 1);
    return size - offset % size;
}

/* Empty, longer than any object, about as long as what is left of the slot or as any slot, or short. */
static size_t source_length(run *r, uint32_t offset)
{
    choices *const c = &r->input;
    switch (below(c, 8)) {
    case 0:
        return 0;
    case 1:
        return LARGEST_SIZE + below(c, LONGEST_SOURCE - LARGEST_SIZE + 1);
    case 2:
    case 3:
        return around(c, left_in_slot(r, offset));
    case 4:
        return around(c, slot_size(below(c, CLASSES)));
    default:
        return below(c, 64);
    }
}

/* Without a zero byte, or with one at its front, its end or anywhere, or with several. */
static void make_source(run *r, uint32_t offset)
{
    choices *const c = &r->input;
    twin_lend(r->source, source_length(r, offset));
    twin_fill(r->source, next_byte(c));
    const size_t len = r->source->len;
    const uint32_t kind = below(c, 6);
    if (len == 0 || kind == 0)
        return;
    if (kind == 1 || kind == 2)
        twin_set(r->source, 0, 0);
    if (kind == 2 || kind == 3)
        twin_set(r->source, len - 1, 0);
    if (kind >= 4)
        twin_set(r->source, below(c, (uint32_t)len), 0);
}

/* ---- what a read takes */

/* Empty, about as long as a slot, or short; it stays lent to the requests that follow. */
static void make_page(run *r)
{
    static const uint32_t few[] = {0, 0, 1, 2, 7};
    choices *const c = &r->input;
    const uint32_t kind = below(c, 4);
    if (kind == 0)
        twin_lend(r->page, PICK(c, few));
    else if (kind == 1)
        twin_lend(r->page, around(c, slot_size(below(c, 8)))); /* at most LONGEST_PAGE */
    else
        twin_lend(r->page, below(c, 64));
    twin_fill(r->page, next_byte(c));
}

/* About as many bytes as the slot has from an offset on, or as the page has, or any number. */
static uint32_t wanted_count(run *r, uint32_t offset)
{
    const uint32_t kind = below(&r->input, 4);
    if (kind == 0)
        return (uint32_t)around(&r->input, left_in_slot(r, offset));
    if (kind == 1)
        return (uint32_t)around(&r->input, r->page->len);
    return any_count(&r->input);
}

/* ---- requests */

static void pack(twin *request, uint32_t operation, uint32_t argument, uint32_t count)
{
    twin_lend(request, REQUEST_LEN);
    twin_set_word(request, 0, operation);
    twin_set_word(request, 4, argument);
    twin_set_word(request, 8, count);
    twin_set_word(request, 12, 0);
}

/* Another length, another operation, or another byte where one must be zero, a count's bytes among them. */
static void damage(choices *c, twin *request)
{
    static const size_t lengths[] = {0, 1, 8, 15, 17, 32, LONGEST_REQUEST}, zeros[] = {1, 2, 3, 8, 9, 10, 11, 12, 13, 14, 15};
    const uint32_t kind = below(c, 4);
    const size_t at = PICK(c, zeros);
    if (kind == 0)
        twin_lend(request, PICK(c, lengths));
    else if (kind == 1)
        twin_set(request, 0, (uint8_t)(READ + below(c, 250)));
    else
        twin_set(request, at, next_byte(c));
}

static void serve(run *r)
{
    const poheldu_answer a = call_serve(r->lent, r->request, r->source, r->page);
    if (a.number == POHELDU_SERVED && twin_ours(r->request)[0] == ALLOCATE)
        r->allocated[r->allocations++ % REMEMBERED] = a.value;
}

void serve_any(run *r)
{
    static const uint32_t operations[] = {ALLOCATE,  ALLOCATE,   ALLOCATE,   ALLOCATE,    ALLOCATE,    FREE,        FREE, FREE, FREE, REMAINING,
                                          REMAINING, COPY_BYTES, COPY_BYTES, COPY_STRING, COPY_STRING, COPY_PADDED, READ, READ};
    const uint32_t operation = PICK(&r->input, operations);
    const uint32_t argument = operation == ALLOCATE ? any_size(&r->input) : any_offset(r);
    uint32_t count = 0;
    if (operation == READ) {
        make_page(r);
        count = wanted_count(r, argument);
    } else if (operation >= COPY_BYTES) {
        make_source(r, argument);
        count = operation == COPY_PADDED ? any_count(&r->input) : 0;
    }
    pack(r->request, operation, argument, count);
    if (below(&r->input, 24) == 1)
        damage(&r->input, r->request);
    serve(r);
}

void read_any(run *r)
{
    const uint32_t offset = any_offset(r);
    make_page(r);
    call_read(r->lent, offset, wanted_count(r, offset), r->page);
}

void allocate_some(run *r, uint32_t class, uint32_t times)
{
    for (uint32_t i = 0; i < times; i++) {
        pack(r->request, ALLOCATE, slot_size(class), 0);
        serve(r);
    }
}
