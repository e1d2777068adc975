/*
 * Calls made on the library and on the second implementation: the run ends (abort) where the answers or any byte of any buffer differ. What came
 * is counted, so that a run that did not see everything can fail.
 */
#ifndef CALLS_H
#define CALLS_H

#include "poheldu.h"
#include "twin.h"

typedef struct {
    twin *heap, *metadata;
} lent_heap;

/* Halves of seeds, beside zero, that draws never change or change once: no opening takes them. */
static const uint32_t frozen_z = 0x9068FFFF, frozen_w[] = {0x464FFFFF, 0x8C9FFFFE, 0xD2EFFFFD};

poheldu_answer call_open(lent_heap h, poheldu_seeds seeds, uint32_t pattern);
poheldu_answer call_serve(lent_heap h, const twin *request, const twin *source, const twin *page);
void call_read(lent_heap h, uint32_t offset, uint32_t count, const twin *page);
poheldu_answer call_inspect(lent_heap h, const twin *list); /* the list's length in bytes is one of whole numbers */
void call_vote(const twin *blocks, size_t replicas, size_t block_len, const twin *output);
void call_vote_whole(const twin *outputs, size_t replicas, size_t length, const twin *output);
void call_metadata_length(size_t heap_len);

/* The four lookups of slots: by class and number, by offset, how many there are, and the pattern. */
void call_lookups(lent_heap h, uint32_t size_class, uint32_t number, uint32_t offset);

/* Whole outputs are voted on in blocks of so many bytes. */
enum { BLOCK = 4096 };

/* No heap here has longer regions. */
enum { LONGEST_REGION = 8192, MOST_LISTED = POHELDU_ALL_SLOTS(LONGEST_REGION) };

/* How many slots an inspection has to list, by the second implementation; 0 where it is refused. */
uint32_t hits_of(lent_heap h);

/*
 * Whether every refusal, every operation served, the walk, and every kind of seeds, of string, of corrupt metadata, of
 * part shown, of inspection, of lookup and of whole vote have come.
 */
bool calls_saw_all(void);

/* Says on standard error what came, and how often. */
void calls_report(void);

#endif
