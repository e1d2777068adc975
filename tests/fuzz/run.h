/* A run of calls on one heap, and the parts that calls are made of. */
#ifndef RUN_H
#define RUN_H

#include "calls.h"
#include "choices.h"

enum { ALLOCATE, FREE, REMAINING, COPY_BYTES, COPY_STRING, COPY_PADDED, READ };

enum {
    CLASSES = 12,
    LARGEST_SIZE = 16384,
    LONGEST_REQUEST = 40,
    LONGEST_SOURCE = LARGEST_SIZE + 256,
    LONGEST_PAGE = 1025,
    MOST_REPLICAS = 17,
    LONGEST_BLOCK = BLOCK + 1,
    LONGEST_WHOLE = 2 * BLOCK + 2,
    SPARE_OUTPUT = 64,
    LONGEST_LIST = MOST_LISTED + 8,
    REMEMBERED = 32,
};

typedef struct {
    choices input;
    size_t region; /* the length of a class's region */
    lent_heap lent;
    twin *request, *source, *page, *blocks, *output, *list;
    twin *outputs, *whole; /* of a whole vote */
    uint32_t allocated[REMEMBERED]; /* offsets that allocations gave, freed ones too */
    size_t allocations;
    bool clean; /* nobody but a served opening and requests wrote to clear slots */
} run;

static inline uint32_t slot_size(uint32_t class)
{
    return 8u << class;
}

static inline uint32_t slots(const run *r, uint32_t class)
{
    return (uint32_t)r->region / slot_size(class);
}

/* Numbers whose products and sums pass 2^32 or 2^64. */
size_t any_huge(choices *c);

/* Metadata (metadata.c): opened with any seeds, made by no opening, or with one byte or one count changed. */
void open_any(run *r);
void foreign_metadata(run *r);
void damage_metadata(run *r);

/* Opens, and sets those slots that the next draws test: chance hardly comes to a walk in the midst of a bitmap. The class of these slots. */
uint32_t set_trap(run *r);

/* Offsets (requests.c): of an object, freed or not, or any; and how many bytes its slot has from one on. */
uint32_t any_offset(run *r);
uint32_t left_in_slot(const run *r, uint32_t offset);

/* Requests (requests.c): any; a read with plain arguments; some allocations of one class's size. */
void serve_any(run *r);
void read_any(run *r);
void allocate_some(run *r, uint32_t class, uint32_t times);

/* Canaries (inspections.c): others write to the heap; an inspection; lookups of slots. */
void scribble(run *r);
void inspect_any(run *r);
void look_up_any(run *r);

/* Votes (votes.c): on blocks, and on whole outputs. */
void vote_any(run *r);
void vote_whole_any(run *r);

#endif
