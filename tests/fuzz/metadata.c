#include "run.h"

enum { COUNTS_AT = 8, COUNTS_LEN = 4 * CLASSES, PATTERN_AT = COUNTS_AT + COUNTS_LEN, BITMAPS_AT = PATTERN_AT + 4, DRAWS = 32 };

/* A half of seeds: most are good, some zero, frozen, next to a frozen one, or frozen in the other half alone. */
static uint32_t any_half(choices *c, uint32_t frozen, uint32_t other)
{
    static const uint32_t few[] = {1, 2, 65535, 65536, UINT32_MAX};
    switch (below(c, 16)) {
    case 0:
    case 1:
        return PICK(c, few);
    case 2:
        return frozen;
    case 3:
        return (uint32_t)around(c, frozen);
    case 4:
        return 0;
    case 5:
        return other;
    default:
        return next_word(c);
    }
}

static poheldu_seeds any_seeds(choices *c)
{
    poheldu_seeds seeds;
    const uint32_t frozen = PICK(c, frozen_w);
    seeds.z = any_half(c, frozen_z, frozen);
    seeds.w = any_half(c, frozen, frozen_z);
    return seeds;
}

/* Those that metadata may hold which no opening made: often such that every draw is the same. */
static poheldu_seeds foreign_seeds(choices *c)
{
    poheldu_seeds seeds = any_seeds(c);
    if (below(c, 4) == 1)
        seeds.z = frozen_z;
    if (below(c, 4) == 1)
        seeds.w = PICK(c, frozen_w);
    return seeds;
}

/* Zeros, one byte four times, or any four. */
static uint32_t any_pattern(choices *c)
{
    switch (below(c, 4)) {
    case 0:
        return 0;
    case 1:
        return 0x01010101u * next_byte(c);
    default:
        return next_word(c);
    }
}

static bool open_with(run *r, poheldu_seeds seeds, uint32_t pattern)
{
    const bool opened = call_open(r->lent, seeds, pattern).number == POHELDU_SERVED;
    if (opened)
        r->allocations = 0;
    r->clean = r->clean || opened;
    return opened;
}

void open_any(run *r)
{
    const poheldu_seeds seeds = any_seeds(&r->input);
    open_with(r, seeds, any_pattern(&r->input));
}

static size_t bitmap_start(const run *r, uint32_t class)
{
    size_t start = BITMAPS_AT;
    for (uint32_t c = 0; c < class; c++)
        start += (slots(r, c) + 7) / 8;
    return start;
}

/* ---- live counts */

static void set_count(run *r, uint32_t class, uint32_t count)
{
    twin_set_word(r->lent.metadata, COUNTS_AT + 4 * class, count);
}

static uint32_t set_bits(const run *r, uint32_t class)
{
    const uint8_t *const bitmap = twin_ours(r->lent.metadata) + bitmap_start(r, class);
    uint32_t count = 0;
    for (uint32_t i = 0; i < slots(r, class); i++)
        count += bitmap[i / 8] >> i % 8 & 1;
    return count;
}

/* Counts that are believed: none, half, or as many as have their bit set, at most half. */
static void set_counts(run *r, uint32_t kind)
{
    for (uint32_t class = 0; class < CLASSES; class++) {
        const uint32_t half = slots(r, class) / 2, live = set_bits(r, class);
        set_count(r, class, kind == 0 ? 0 : kind == 1 || live > half ? half : live);
    }
}

/* One count that is believed, or one more, or one that is small when doubled or cut short. */
static void damage_count(run *r)
{
    const uint32_t class = below(&r->input, CLASSES), half = slots(r, class) / 2;
    const uint32_t counts[] = {0, half / 2, half, half + 1, 1u << 16, (1u << 31) + half, UINT32_MAX};
    set_count(r, class, PICK(&r->input, counts));
}

/* ---- foreign metadata */

static uint8_t noise(uint32_t *state)
{
    *state = *state * 1664525 + 1013904223;
    return (uint8_t)(*state >> 24);
}

/* A byte of a bitmap: few, half or most of its slots live, or about half, where allocations begin to be refused. */
static uint8_t bitmap_byte(uint32_t kind, uint32_t *state)
{
    const uint8_t a = noise(state), b = noise(state);
    switch (kind) {
    case 0:
        return a;
    case 1:
        return a & b;
    case 2:
        return a | b;
    case 3:
        return 0xFF;
    default:
        return a < 16 ? 0x07 : 0x0F;
    }
}

/*
 * Any bits, those beyond the last slot too, seeds that may be zero, and counts that need not agree with the bits. Half of these heaps hold the
 * pattern, so that an inspection lists few slots.
 */
void foreign_metadata(run *r)
{
    twin *const metadata = r->lent.metadata;
    const uint32_t kind = below(&r->input, 5), pattern = any_pattern(&r->input);
    const poheldu_seeds seeds = foreign_seeds(&r->input), ones = {1, 1};
    uint32_t state = next_word(&r->input);
    if (below(&r->input, 2) == 1)
        open_with(r, ones, pattern);
    r->clean = false;
    for (size_t at = BITMAPS_AT; at < metadata->len; at++)
        twin_set(metadata, at, bitmap_byte(kind, &state));
    twin_set_word(metadata, 0, seeds.z);
    twin_set_word(metadata, 4, seeds.w);
    twin_set_word(metadata, PATTERN_AT, pattern);
    set_counts(r, below(&r->input, 4));
    if (below(&r->input, 8) == 1)
        damage_count(r);
}

/* Of the counts' bytes most others would refuse every request from then on, so these are seldom changed. */
void damage_metadata(run *r)
{
    r->clean = false;
    if (below(&r->input, 4) == 1) {
        damage_count(r);
        return;
    }
    const uint32_t at = below(&r->input, (uint32_t)r->lent.metadata->len - COUNTS_LEN);
    twin_set(r->lent.metadata, at < COUNTS_AT ? at : at + COUNTS_LEN, next_byte(&r->input));
}

/* ---- traps */

static void set_slot(run *r, uint32_t class, uint32_t slot)
{
    const size_t at = bitmap_start(r, class) + slot / 8;
    twin_set(r->lent.metadata, at, twin_ours(r->lent.metadata)[at] | (uint8_t)(1u << slot % 8));
}

/* Sets the slots that the next draws test, and some above the last: all 32, so that the next allocation walks, or one less. */
static void set_drawn(run *r, uint32_t class, uint32_t w)
{
    const uint32_t draws = below(&r->input, 4) == 1 ? DRAWS - 1 : DRAWS, above = below(&r->input, 8), n = slots(r, class);
    for (uint32_t i = 0; i < draws; i++) {
        w = 18000 * (w & 0xFFFF) + (w >> 16); /* z does not matter: it moves only the draw's high half */
        set_slot(r, class, w % n);
    }
    for (uint32_t i = 1; i <= above; i++)
        set_slot(r, class, (w + i) % n);
    set_count(r, class, set_bits(r, class));
}

uint32_t set_trap(run *r)
{
    const poheldu_seeds seeds = {1, next_word(&r->input) | 1};
    const uint32_t pattern = any_pattern(&r->input);
    uint32_t class = below(&r->input, 4);
    while (slots(r, class) < 4 * DRAWS) /* else it were at capacity */
        class--;
    if (open_with(r, seeds, pattern))
        set_drawn(r, class, seeds.w);
    return class;
}
