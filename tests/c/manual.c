/*
 * What include/poheldu.h says in words against the library: its table of how many objects a class takes, the names of
 * its refusals, the limits of its votes, and which operations there are and which have a count. The first argument is
 * the header's path. Prints what is wrong, and then exits 1.
 */
#include "poheldu.h"

#include <ctype.h>
#include <stdio.h>
#include <stdlib.h>
#include <string.h>

enum { COLUMNS = 6, LINE = 256, OPERATIONS = 16, NO_OBJECTS = -1, PATTERN = 0x5AA55AA5 };

static unsigned cells, names, limits, operations, failures;

static void wrong(const char *what, const char *line)
{
    printf("%s: %s\n", what, line);
    failures++;
}

/* The next number of a line in the table: 1,024 or, for none, a dash. */
static long number(const char **at)
{
    long n = 0;
    *at += strspn(*at, " ");
    if (**at == '-') {
        ++*at;
        return NO_OBJECTS;
    }
    for (; isdigit((unsigned char)**at) || **at == ','; ++*at)
        if (**at != ',')
            n = 10 * n + (**at - '0');
    return n;
}

static poheldu_heap opened(size_t region)
{
    const poheldu_heap h = {calloc(1, POHELDU_HEAP_BYTES(region)), POHELDU_HEAP_BYTES(region),
                            calloc(1, POHELDU_METADATA_BYTES(region)), POHELDU_METADATA_BYTES(region)};
    if (h.heap == NULL || h.metadata == NULL)
        abort();
    const poheldu_seeds seeds = {7, 11};
    const poheldu_answer a = poheldu_open_heap(&h, seeds, PATTERN);
    if (a.number != POHELDU_SERVED) {
        printf("region of %zu bytes: %s\n", region, poheldu_name(a.number));
        exit(1);
    }
    return h;
}

/* How many objects of these sizes in turn a class takes, and what it answers to one more; line: where that stands. */
static size_t taken(size_t region, size_t least, size_t most, uint32_t *refusal, const char *line)
{
    const poheldu_heap h = opened(region);
    size_t count = 0;
    poheldu_answer a = poheldu_allocate_at(&h, least);
    for (; a.number == POHELDU_SERVED; a = poheldu_allocate_at(&h, count % 2 == 0 ? least : most)) {
        count++;
        if (count <= 2 && poheldu_remaining_at(&h, a.value).value != most)
            wrong("a size of another class", line);
    }
    *refusal = a.number;
    free(h.heap);
    free(h.metadata);
    return count;
}

/* A row: the sizes of a class, and for each region how many objects it takes. */
static void check_row(const char *line, unsigned row, const size_t regions[COLUMNS])
{
    static size_t last;
    const char *at = line + strlen(" *");
    const size_t least = (size_t)number(&at);
    at += strlen(" to");
    const size_t most = (size_t)number(&at);
    at += strlen(" bytes");
    if (least != (row == 0 ? 0 : last + 1) || row >= POHELDU_CLASSES || most != POHELDU_SLOT_BYTES(row))
        wrong("not the sizes of the class", line);
    last = most;
    for (int i = 0; i < COLUMNS; i++, cells++) {
        const long cell = number(&at);
        uint32_t refusal;
        const size_t count = taken(regions[i], least, most, &refusal, line);
        if (count != (size_t)(cell == NO_OBJECTS ? 0 : cell) || count != POHELDU_CAPACITY(regions[i], row))
            wrong("another number of objects", line);
        if (refusal != (cell == NO_OBJECTS ? POHELDU_CLASS_TOO_SMALL : POHELDU_CLASS_AT_CAPACITY))
            wrong("another refusal after the last object", line);
    }
}

static void check_table(FILE *header)
{
    static const char head[] = " *   objects in a region of ";
    char line[LINE] = "";
    size_t regions[COLUMNS] = {0};
    unsigned rows = 0;
    while (fgets(line, LINE, header) != NULL && strncmp(line, head, strlen(head)) != 0)
        ;
    const char *at = line + strlen(head);
    for (int i = 0; i < COLUMNS; i++)
        regions[i] = (size_t)number(&at);
    while (fgets(line, LINE, header) != NULL && strstr(line, " bytes ") != NULL)
        check_row(line, rows++, regions);
    if (rows != POHELDU_CLASSES)
        wrong("not a row for each class", head);
}

/* A refusal's name is its enumerator's: POHELDU_UNUSABLE_SEED = 1 is "unusable seed". */
static void check_names(FILE *header)
{
    static const char prefix[] = "    POHELDU_";
    char line[LINE] = "";
    while (fgets(line, LINE, header) != NULL && strcmp(line, "typedef enum {\n") != 0)
        ;
    for (; fgets(line, LINE, header) != NULL && strncmp(line, prefix, strlen(prefix)) == 0; names++) {
        char *const name = line + strlen(prefix), *const equals = strstr(name, " = ");
        if (equals == NULL)
            break;
        const unsigned long value = strtoul(equals + strlen(" = "), NULL, 10);
        *equals = '\0';
        for (char *c = name; *c != '\0'; c++)
            *c = *c == '_' ? ' ' : (char)tolower((unsigned char)*c);
        if (value != names || strcmp(poheldu_name((uint32_t)value), name) != 0)
            wrong("not the name of that number", name);
    }
    if (strcmp(line, "} poheldu_refusal;\n") != 0)
        wrong("not the enum of refusals", line);
    if (strcmp(poheldu_name(names), "unknown") != 0 || strcmp(poheldu_name(UINT32_MAX), "unknown") != 0)
        wrong("a name for a number that no refusal has", poheldu_name(names));
}

typedef poheldu_verdict vote(const uint8_t *, size_t, size_t, size_t, uint8_t *, size_t);

/* Whether so many replicas may vote on so many bytes each. */
static int allowed(vote *call, size_t replicas, size_t length)
{
    uint8_t *const lent = calloc(replicas + 1, length + 1), *const output = calloc(1, length + 1);
    if (lent == NULL || output == NULL)
        abort();
    const poheldu_verdict v = call(lent, replicas * length, replicas, length, output, length);
    free(lent);
    free(output);
    return v.number == POHELDU_SERVED;
}

/* The next parameter of this name, which has its limits beside it: replicas 3 to 16. */
static void read_limits(FILE *header, const char *name, size_t *least, size_t *most)
{
    char line[LINE] = "", start[LINE];
    snprintf(start, sizeof start, " * %s ", name);
    while (fgets(line, LINE, header) != NULL && strncmp(line, start, strlen(start)) != 0)
        ;
    const char *at = line + strlen(start);
    *least = (size_t)number(&at);
    at += strlen(" to");
    *most = (size_t)number(&at);
    limits += 2;
}

static void check_limits(FILE *header, vote *call, const char *length_name)
{
    size_t fewest, most, shortest, longest;
    read_limits(header, "replicas", &fewest, &most);
    read_limits(header, length_name, &shortest, &longest);
    if (allowed(call, fewest - 1, shortest) || !allowed(call, fewest, shortest) || !allowed(call, most, shortest) ||
        allowed(call, most + 1, shortest))
        wrong("other replicas than those of the vote with", length_name);
    if (allowed(call, fewest, shortest - 1) || !allowed(call, most, longest) || allowed(call, fewest, longest + 1))
        wrong("another", length_name);
}

/* Whether the library refuses a request of this operation with this count for what it is made of. */
static int malformed(unsigned operation, uint32_t count)
{
    const poheldu_heap h = opened(POHELDU_SMALLEST_REGION);
    const poheldu_answer a = poheldu_request(&h, operation, 0, count, NULL, 0);
    free(h.heap);
    free(h.metadata);
    return a.number == POHELDU_MALFORMED_REQUEST;
}

/* The operations are numbered from 0, and the library knows them and no other; named: what they are called. */
static void check_numbers(FILE *header, char named[OPERATIONS][LINE])
{
    static const char indent[] = "    ";
    char line[LINE] = "";
    while (fgets(line, LINE, header) != NULL && strcmp(line, "typedef enum {\n") != 0)
        ;
    for (; fgets(line, LINE, header) != NULL && operations < OPERATIONS; operations++) {
        char *const equals = strstr(line, " = ");
        if (equals == NULL)
            break;
        if (strtoul(equals + strlen(" = "), NULL, 10) != operations || malformed(operations, 0))
            wrong("not the number of that operation", line);
        *equals = '\0';
        strcpy(named[operations], line + strlen(indent));
    }
    if (strcmp(line, "} poheldu_operation;\n") != 0)
        wrong("not the enum of operations", line);
    if (!malformed(operations, 0) || !malformed(UINT8_MAX, 0))
        wrong("an operation more than in the enum", line);
}

/* Those that have a count are named where poheldu_pack says what the bytes of a request are. */
static void check_counts(FILE *header, char named[OPERATIONS][LINE])
{
    static const char start[] = " * The bytes of a request: ";
    char line[LINE] = "", said[4 * LINE] = "";
    while (fgets(line, LINE, header) != NULL && strncmp(line, start, strlen(start)) != 0)
        ;
    while (strcmp(line, " *\n") != 0 && strlen(said) + strlen(line) < sizeof said) {
        strcat(said, line);
        if (fgets(line, LINE, header) == NULL)
            break;
    }
    for (unsigned i = 0; i < operations; i++)
        if (malformed(i, 1) != (strstr(said, named[i]) == NULL))
            wrong("a count that is not as the bytes of a request have it", named[i]);
}

int main(int count, char **arguments)
{
    static char named[OPERATIONS][LINE];
    FILE *const header = count == 2 ? fopen(arguments[1], "r") : NULL;
    if (header == NULL) {
        fprintf(stderr, "usage: manual include/poheldu.h\n");
        return 2;
    }
    check_table(header);
    check_names(header);
    check_limits(header, poheldu_vote, "block_len");
    check_limits(header, poheldu_vote_whole, "length");
    check_numbers(header, named);
    check_counts(header, named);
    fclose(header);
    printf("%u cells, %u names, %u limits and %u operations, %u wrong\n", cells, names, limits, operations, failures);
    return failures > 0 || cells == 0 || names == 0 || operations == 0;
}
