/*
 * A buffer twice: one for the library, one for the second implementation. Each lies in a room of its own between two unreadable pages, and the
 * part that calls are lent ends (or starts) at one of them, so that a byte read or written too far faults.
 */
#ifndef TWIN_H
#define TWIN_H

#include <stdbool.h>
#include <stddef.h>
#include <stdint.h>

typedef struct {
    const char *name;
    uint8_t *ours, *theirs; /* the rooms */
    size_t room;
    size_t start, len; /* the part that calls are lent */
    bool at_end;       /* it ends where the room does; else it starts there */
} twin;

/* Room for a part of most bytes, with a page more, so that a part may be a little longer than it ought to be. */
twin twin_new(const char *name, size_t most);

/* Lends another length from now on; the bytes stay where they are, and the part keeps to its end of the room. */
void twin_lend(twin *t, size_t len);

/* The part for each implementation. A part of no bytes is a null pointer, or one to an unreadable page. */
uint8_t *twin_ours(const twin *t);
uint8_t *twin_theirs(const twin *t);

/* Bytes that differ from their neighbours and are never zero, so that a copy to a wrong place shows. */
void twin_fill(twin *t, uint8_t salt);

/* Such bytes for the first len, and the same for every len that follow: outputs that are equal. */
void twin_fill_alike(twin *t, size_t len);

/* Sets a byte of the part in both; or four, the lowest first. */
void twin_set(twin *t, size_t at, uint8_t value);
void twin_set_word(twin *t, size_t at, uint32_t word);

/* Whether the rooms are equal, the bytes outside the part too. */
bool twin_equal(const twin *t);

/* Says on standard error where the rooms differ. */
void twin_show_difference(const twin *t);

#endif
