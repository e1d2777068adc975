/*
 * An input's bytes as choices; past its end every choice is the first. No expression makes two: their order would be the compiler's, and an input
 * that one found be another for the next.
 */
#ifndef CHOICES_H
#define CHOICES_H

#include <stddef.h>
#include <stdint.h>

typedef struct {
    const uint8_t *at, *end;
} choices;

static inline uint8_t next_byte(choices *c)
{
    return c->at < c->end ? *c->at++ : 0;
}

static inline uint32_t next_word(choices *c)
{
    uint32_t word = 0;
    for (int i = 0; i < 4; i++)
        word = word << 8 | next_byte(c);
    return word;
}

/* A number below limit, which is not 0. */
static inline uint32_t below(choices *c, uint32_t limit)
{
    uint32_t number = next_byte(c);
    if (limit > 256)
        number = number << 8 | next_byte(c);
    return number % limit;
}

/* A number, or the one before or after it. */
static inline size_t around(choices *c, size_t number)
{
    return number + below(c, 3) - 1;
}

/* One of an array's entries. */
#define PICK(c, array) ((array)[below((c), sizeof(array) / sizeof *(array))])

#endif
