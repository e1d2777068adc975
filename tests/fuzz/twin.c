#define _DEFAULT_SOURCE /* MAP_ANONYMOUS */
#include "twin.h"

#include <stdio.h>
#include <stdlib.h>
#include <string.h>
#include <sys/mman.h>
#include <unistd.h>

static size_t page_size(void)
{
    return (size_t)sysconf(_SC_PAGESIZE);
}

/* size bytes, whole pages, between two that nobody may touch */
static uint8_t *new_room(size_t size)
{
    const size_t page = page_size();
    uint8_t *const start = mmap(NULL, size + 2 * page, PROT_NONE, MAP_PRIVATE | MAP_ANONYMOUS, -1, 0);
    if (start == MAP_FAILED || mprotect(start + page, size, PROT_READ | PROT_WRITE) != 0) {
        perror("fuzz: a buffer between guard pages");
        exit(1);
    }
    return start + page;
}

twin twin_new(const char *name, size_t most)
{
    const size_t page = page_size(), room = (most + page - 1) / page * page + page;
    twin t = {.name = name, .ours = new_room(room), .theirs = new_room(room), .room = room, .at_end = true};
    twin_lend(&t, most);
    return t;
}

void twin_lend(twin *t, size_t len)
{
    if (len > t->room)
        abort();
    t->len = len;
    t->start = t->at_end ? t->room - len : 0;
}

static uint8_t *part(const twin *t, uint8_t *room)
{
    return t->len == 0 && !t->at_end ? NULL : room + t->start;
}

uint8_t *twin_ours(const twin *t)
{
    return part(t, t->ours);
}

uint8_t *twin_theirs(const twin *t)
{
    return part(t, t->theirs);
}

void twin_fill(twin *t, uint8_t salt)
{
    for (size_t i = 0; i < t->len; i++)
        t->ours[t->start + i] = (uint8_t)((i + salt) % 255 + 1);
    if (t->len > 0)
        memcpy(t->theirs + t->start, t->ours + t->start, t->len);
}

void twin_fill_alike(twin *t, size_t len)
{
    twin first = *t;
    first.len = len < t->len ? len : t->len;
    twin_fill(&first, 0);
    for (size_t at = first.len; at < t->len; at += len) {
        const size_t size = len < t->len - at ? len : t->len - at;
        memcpy(t->ours + t->start + at, t->ours + t->start, size);
        memcpy(t->theirs + t->start + at, t->ours + t->start, size);
    }
}

void twin_set(twin *t, size_t at, uint8_t value)
{
    if (at >= t->len)
        abort();
    t->ours[t->start + at] = t->theirs[t->start + at] = value;
}

void twin_set_word(twin *t, size_t at, uint32_t word)
{
    for (size_t i = 0; i < 4; i++)
        twin_set(t, at + i, (uint8_t)(word >> 8 * i));
}

bool twin_equal(const twin *t)
{
    return memcmp(t->ours, t->theirs, t->room) == 0;
}

void twin_show_difference(const twin *t)
{
    for (size_t i = 0; i < t->room; i++)
        if (t->ours[i] != t->theirs[i]) {
            fprintf(stderr, "%s differs at byte %td of %zu: library %02x, second implementation %02x\n", t->name,
                    (ptrdiff_t)i - (ptrdiff_t)t->start, t->len, t->ours[i], t->theirs[i]);
            return;
        }
}
