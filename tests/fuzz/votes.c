#include "run.h"

static size_t any_replicas(choices *c)
{
    switch (below(c, 24)) {
    case 0:
        return below(c, MOST_REPLICAS + 1);
    case 1:
        return any_huge(c);
    default:
        return 3 + below(c, 14);
    }
}

static size_t any_block_length(choices *c)
{
    static const size_t edges[] = {0, LONGEST_BLOCK - 2, LONGEST_BLOCK - 1, LONGEST_BLOCK};
    switch (below(c, 24)) {
    case 0:
        return PICK(c, edges);
    case 1:
        return any_huge(c);
    case 2:
    case 3:
        return around(c, slot_size(below(c, 9))); /* next to powers of two, where strides end */
    case 4:
    case 5:
    case 6:
        return 1 + below(c, 40);
    default:
        return 1 + below(c, 2);
    }
}

/* What these numbers ask for, seldom a byte or an output more or less; where no buffer can hold that, what a careless program would make of it. */
static size_t outputs_length(choices *c, size_t replicas, size_t length, size_t longest)
{
    if (replicas > MOST_REPLICAS || length > longest)
        return replicas * length % 64;
    const size_t right = replicas * length, kind = below(c, 24), step = kind % 2 == 0 ? 1 : length;
    if (kind < 2 && right + step <= MOST_REPLICAS * longest)
        return right + step;
    if (kind >= 2 && kind < 4 && right >= step)
        return right - step;
    return right;
}

/* Outputs differ in one byte of a block: its place is the first, the last or any. Few contents in groups, or each its own. */
static void differ(choices *c, twin *outputs, size_t length, size_t block, size_t block_len)
{
    static const uint32_t groups[] = {1, 2, 2, 3, 4};
    const uint32_t kind = below(c, 3), group_count = PICK(c, groups);
    const size_t place = kind == 0 ? 0 : kind == 1 ? block_len - 1 : below(c, LONGEST_BLOCK) % block_len;
    const bool each_its_own = below(c, 6) == 5;
    for (size_t at = block + place, replica = 0; at < outputs->len; at += length, replica++)
        twin_set(outputs, at, (uint8_t)(each_its_own ? replica : below(c, group_count)));
}

static size_t output_length(choices *c, size_t length, size_t longest)
{
    if (length > longest)
        return below(c, SPARE_OUTPUT);
    switch (below(c, 24)) {
    case 0:
        return length - (length > 0);
    case 1:
        return below(c, (uint32_t)length + 1);
    case 2:
    case 3:
    case 4:
        return length + below(c, SPARE_OUTPUT);
    default:
        return length;
    }
}

void vote_any(run *r)
{
    choices *const c = &r->input;
    const size_t replicas = any_replicas(c), block_len = any_block_length(c);
    twin_lend(r->blocks, outputs_length(c, replicas, block_len, LONGEST_BLOCK));
    if (block_len > 0) {
        twin_fill_alike(r->blocks, block_len);
        differ(c, r->blocks, block_len, 0, block_len);
    }
    twin_lend(r->output, output_length(c, block_len, LONGEST_BLOCK));
    call_vote(r->blocks, replicas, block_len, r->output);
}

/* ---- whole votes */

/* Short ones, and those that end next to the end of a block. */
static size_t any_length(choices *c)
{
    switch (below(c, 24)) {
    case 0:
        return 0;
    case 1:
        return any_huge(c);
    case 2:
    case 3:
    case 4:
    case 5:
        return around(c, (1 + below(c, 2)) * BLOCK);
    case 6:
    case 7:
        return BLOCK + 1 + below(c, BLOCK);
    default:
        return 1 + below(c, 40);
    }
}

/* Equal outputs, but for a few blocks. */
static void make_outputs(choices *c, twin *outputs, size_t length)
{
    const uint32_t blocks = length > LONGEST_WHOLE ? 1 : (uint32_t)(length + BLOCK - 1) / BLOCK, times = below(c, 4);
    twin_fill_alike(outputs, length);
    for (uint32_t i = 0; i < times; i++) {
        const size_t block = (size_t)below(c, blocks) * BLOCK, left = length - block;
        differ(c, outputs, length, block, left < BLOCK ? left : BLOCK);
    }
}

void vote_whole_any(run *r)
{
    choices *const c = &r->input;
    const size_t replicas = any_replicas(c), length = any_length(c);
    twin_lend(r->outputs, outputs_length(c, replicas, length, LONGEST_WHOLE));
    if (length > 0)
        make_outputs(c, r->outputs, length);
    twin_lend(r->whole, output_length(c, length, LONGEST_WHOLE));
    call_vote_whole(r->outputs, replicas, length, r->whole);
}
