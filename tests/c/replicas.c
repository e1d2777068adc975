/*
 * What include/poheldu.h says of replicas that vote: a program that reads an object after its free, or before it writes
 * it, reads the pattern. With one pattern for all the replicas agree on it, and the vote passes a wrong output; with a
 * pattern each, that differ in every byte, it does not. Prints how often it did, and exits 1 where that is not so.
 */
#include "poheldu.h"

#include <stdio.h>
#include <string.h>

enum { TRIALS = 20, COPIES = 3, REGION = 1024, OUTPUT = 4 };

/* The patterns that the header names. */
static const uint32_t patterns[COPIES] = {0xB5E3C7A9, 0xA7D1F3E5, 0xC9B3E1D7};

static const char right[OUTPUT] = {'4', '1', ' ', 'm'};

/* How a replica goes wrong. */
typedef enum { FREED, UNWRITTEN } fault;

/* A replica's output, of as many bytes as are read wrongly; the rest is right. 0 where the heap is refused. */
static int decode(uint32_t pattern, fault f, size_t wrong, uint8_t output[OUTPUT])
{
    static uint8_t heap[POHELDU_HEAP_BYTES(REGION)], metadata[POHELDU_METADATA_BYTES(REGION)];
    const poheldu_heap h = {heap, sizeof heap, metadata, sizeof metadata};
    const poheldu_answer opened = poheldu_open_heap(&h, poheldu_random_seeds(), pattern);
    uint8_t *const object = poheldu_allocate(&h, OUTPUT);
    if (opened.number != POHELDU_SERVED || object == NULL)
        return 0;
    if (f == FREED) {
        poheldu_copy_bytes(&h, object, right, OUTPUT);
        poheldu_free(&h, object); /* too early */
    }
    memcpy(output, right, OUTPUT);
    memcpy(output, object, wrong);
    return 1;
}

/* How often a vote passes a wrong output; apart: whether each replica has a pattern of its own. */
static int passed(fault f, size_t wrong, int apart)
{
    int count = 0;
    for (int trial = 0; trial < TRIALS; trial++) {
        uint8_t outputs[COPIES][OUTPUT], agreed[OUTPUT];
        for (int i = 0; i < COPIES; i++)
            if (!decode(patterns[apart ? i : 0], f, wrong, outputs[i]))
                return -1;
        const poheldu_verdict v = poheldu_vote(outputs[0], sizeof outputs, COPIES, OUTPUT, agreed, OUTPUT);
        count += v.number == POHELDU_SERVED && memcmp(agreed, right, OUTPUT) != 0;
    }
    return count;
}

int main(void)
{
    int failures = 0;
    for (size_t wrong = 1; wrong <= OUTPUT; wrong++)
        for (int f = FREED; f <= UNWRITTEN; f++) {
            const int one = passed((fault)f, wrong, 0), each = passed((fault)f, wrong, 1);
            printf("%s, %zu bytes: a wrong output passed %d of %d votes with one pattern, %d with a pattern each\n",
                   f == FREED ? "freed" : "unwritten", wrong, one, TRIALS, each);
            failures += one != TRIALS || each != 0;
        }
    return failures > 0;
}
