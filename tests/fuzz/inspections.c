#include "run.h"

#include <stdio.h>
#include <stdlib.h>

/* ---- others who write to the heap */

/* One byte over and over, bytes that count up, or the pattern out of step. */
static uint8_t stray_byte(const run *r, uint32_t kind, uint8_t first, size_t at)
{
    const poheldu_heap h = {.heap_len = r->lent.heap->len, .metadata = twin_ours(r->lent.metadata), .metadata_len = r->lent.metadata->len};
    if (kind == 0)
        return first;
    return kind == 1 ? (uint8_t)(first + at) : (uint8_t)(poheldu_pattern(&h) >> (at + 1) % 4 * 8);
}

/* Past the slot that an offset lies in, to its end, or a few bytes from the offset on. */
void scribble(run *r)
{
    choices *const c = &r->input;
    const uint32_t kind = below(c, 4), offset = any_offset(r), left = left_in_slot(r, offset);
    const size_t at = kind == 0 ? (size_t)offset + left : offset, count = kind == 1 ? left : 1 + below(c, 16);
    const uint32_t bytes = below(c, 3);
    const uint8_t first = next_byte(c);
    for (size_t i = at; i < at + count && i < r->lent.heap->len; i++)
        twin_set(r->lent.heap, i, stray_byte(r, bytes, first, i));
    r->clean = false;
}

/* ---- inspections */

/* None, one too few, just enough, some more, or any short length. */
static size_t list_length(choices *c, size_t hits)
{
    switch (below(c, 8)) {
    case 0:
        return 0;
    case 1:
    case 2:
        return hits - (hits > 0);
    case 3:
    case 4:
        return hits;
    case 5:
        return hits + below(c, LONGEST_LIST - MOST_LISTED + 1);
    default:
        return below(c, 16);
    }
}

void inspect_any(run *r)
{
    const size_t list_len = list_length(&r->input, hits_of(r->lent));
    twin_lend(r->list, list_len * sizeof(uint32_t));
    twin_fill(r->list, next_byte(&r->input));
    const poheldu_answer a = call_inspect(r->lent, r->list);
    if (r->clean && (a.value > 0 || a.number == POHELDU_LIST_TOO_SHORT)) {
        fprintf(stderr, "both list a slot that nobody wrote to\n");
        abort();
    }
}

/* ---- lookups */

/* Slots of each class and one past its last, of a class past the last, or any. */
void look_up_any(run *r)
{
    choices *const c = &r->input;
    const uint32_t class = below(c, CLASSES + 1), any = next_word(c), number = below(c, 4) == 0 ? any : any % (slots(r, class) + 1);
    call_lookups(r->lent, class < CLASSES ? class : any, number, any_offset(r));
}
