/*
 * Poheldu: a heap for C programs, over a proved library.
 *
 * Objects are placed at random in size classes, wrong frees are refused and do no harm, copies and
 * reads end where their object ends, an inspection finds what was written past objects or after
 * their free, and replicas vote on their output. The caller lends two buffers and keeps them: the
 * heap, whose bytes the program's objects have, and its metadata, which only these functions write.
 * The library has no state of its own and allocates nothing. Its functions are proved; the small
 * ones in this file, which call them, are plain C and tested.
 *
 * A first program:
 *
 *     #include <poheldu.h>
 *     #include <stdio.h>
 *
 *     static _Alignas(16) uint8_t heap[POHELDU_HEAP_BYTES(4096)];
 *     static uint8_t metadata[POHELDU_METADATA_BYTES(4096)];
 *
 *     int main(void)
 *     {
 *         const poheldu_heap h = {heap, sizeof heap, metadata, sizeof metadata};
 *         poheldu_answer a = poheldu_open_heap(&h, poheldu_random_seeds(), 0xB5E3C7A9);
 *         char *name = poheldu_allocate(&h, 8);
 *         if (a.number != POHELDU_SERVED || name == NULL)
 *             return 1;
 *         a = poheldu_copy_string(&h, name, "Bertrand of the long name");
 *         printf("%u bytes: %s\n", a.value, name);  // prints 8 bytes: Bertran
 *         poheldu_free(&h, name);
 *         a = poheldu_free(&h, name);
 *         printf("%s\n", poheldu_name(a.number));   // prints not allocated
 *         return 0;
 *     }
 *
 *     cc first.c $(pkg-config --cflags --libs poheldu) -o first
 *
 * Functions speak of objects by pointer; those whose names end in _at do the same by offset, the
 * distance from the heap's first byte. A compiler warns where one is given what the other takes.
 *
 * What holds for every call; at a function stands only what differs:
 *
 * Answers    A call ends and answers for any bytes in its buffers, and reads and writes nothing
 *            outside them. Where it is refused, its number is above 0 and its value 0, and no byte
 *            of any buffer has changed; NO_AGREEMENT of poheldu_vote_whole alone has a value, and
 *            leaves blocks written. Checks are made in the order in which a function names them;
 *            the first that fails is the answer.
 * Buffers    A pointer and a length. They need no alignment, but for a list, which is one of
 *            uint32_t. Where objects are to be more than bytes, C asks for a heap without a
 *            declared type, as malloc gives; gcc and clang take an array of uint8_t all the same.
 *            Keep a heap and its metadata apart, best with memory between them that nobody may
 *            write: where metadata lie right behind a heap, a write past its end reaches them. In
 *            a heap with regions of 16,384 bytes and more, the last slot ends where the heap does.
 * Null       A pointer may be null where its length is 0; one to a poheldu_heap is never null.
 * Overlap    No two buffers of one call overlap where one of them is written. The copies with plain
 *            arguments (poheldu_copy_bytes, poheldu_copy_string, poheldu_copy_padded, and the same
 *            with _at) take care of a source that lies in the heap; poheldu_serve leaves that to
 *            the caller.
 * Threads    Calls on the same heap or metadata come one after another; calls on different ones may
 *            run at the same time.
 * Numbers    A size, offset or count that does not fit into 32 bits is answered as any other that
 *            is too large. None is cut.
 * Alignment  An object starts at a multiple of its slot's size from its region's start; the slot's
 *            size is the power of two, 8 or more, that holds the size asked for. Objects are
 *            aligned to 8 bytes if the heap is, and to their slot's size if the heap is aligned to
 *            that.
 */
#ifndef POHELDU_H
#define POHELDU_H

#include <stddef.h>
#include <stdint.h>
#include <string.h>
#include <sys/random.h>

#ifdef __cplusplus
extern "C" {
#endif

#define POHELDU_VERSION_MAJOR 0
#define POHELDU_VERSION_MINOR 1
#define POHELDU_VERSION_PATCH 0
#define POHELDU_VERSION                            \
    POHELDU_QUOTED_(POHELDU_VERSION_MAJOR)         \
    "." POHELDU_QUOTED_(POHELDU_VERSION_MINOR) "." \
    POHELDU_QUOTED_(POHELDU_VERSION_PATCH)
#define POHELDU_QUOTED_(macro) POHELDU_QUOTE_(macro)
#define POHELDU_QUOTE_(text) #text

/*
 * The number of the interface between a program and the library. It rises with every change after
 * which an object compiled against the header before would go wrong: of a parameter or a struct, of
 * what a macro computes, of how metadata are laid out; not where functions are added.
 *
 * An object that includes this header links with a library of the same number alone: it refers to a
 * function whose name has the number, and which returns it. A linker's "undefined reference to
 * poheldu_interface_N" means that object and library are of different versions; compile the one
 * against the header of the other.
 */
#define POHELDU_INTERFACE 1
#define poheldu_interface POHELDU_NUMBERED_(poheldu_interface_, POHELDU_INTERFACE)
#define POHELDU_NUMBERED_(name, number) POHELDU_PASTED_(name, number)
#define POHELDU_PASTED_(name, number) name##number

/*
 * An answer that it makes no sense to drop; a function that is compiled by itself, so that its
 * frame costs no caller; what stays in an object and a program though nothing there uses it.
 */
#if defined(__GNUC__)
#define POHELDU_NODISCARD __attribute__((warn_unused_result))
#define POHELDU_APART static __attribute__((noinline, unused))
#if defined(__has_attribute)
#if __has_attribute(retain)
#define POHELDU_KEPT static __attribute__((used, retain)) /* by a linker's --gc-sections too */
#endif
#endif
#if !defined(POHELDU_KEPT)
#define POHELDU_KEPT static __attribute__((used))
#endif
#else
#define POHELDU_NODISCARD
#define POHELDU_APART static inline
#define POHELDU_KEPT static
#endif

uint32_t poheldu_interface(void);
POHELDU_KEPT uint32_t (*const poheldu_interface_wanted_)(void) = poheldu_interface;

/* ---- Sizes
 *
 * A heap has twelve regions of one length, a power of two from 1,024 to 1,048,576. Each belongs to
 * a size class: class 0 has slots of 8 bytes, each further class slots twice as long. An object
 * takes a slot of the smallest class that holds it, and a class takes as many objects as half of
 * its slots, rounded down:
 *
 *   objects in a region of  1,024   4,096  16,384  65,536  262,144  1,048,576
 *        0 to      8 bytes     64     256   1,024   4,096   16,384     65,536
 *        9 to     16 bytes     32     128     512   2,048    8,192     32,768
 *       17 to     32 bytes     16      64     256   1,024    4,096     16,384
 *       33 to     64 bytes      8      32     128     512    2,048      8,192
 *       65 to    128 bytes      4      16      64     256    1,024      4,096
 *      129 to    256 bytes      2       8      32     128      512      2,048
 *      257 to    512 bytes      1       4      16      64      256      1,024
 *      513 to  1,024 bytes      -       2       8      32      128        512
 *    1,025 to  2,048 bytes      -       1       4      16       64        256
 *    2,049 to  4,096 bytes      -       -       2       8       32        128
 *    4,097 to  8,192 bytes      -       -       1       4       16         64
 *    8,193 to 16,384 bytes      -       -       -       2        8         32
 *
 * An object more is refused with CLASS_AT_CAPACITY; where no number stands, the first with
 * CLASS_TOO_SMALL.
 *
 * The macros are constant expressions (where their arguments are, which they may read more than
 * once):
 *
 *     static uint8_t metadata[POHELDU_METADATA_BYTES(65536)];
 */
#define POHELDU_CLASSES 12
#define POHELDU_SMALLEST_REGION 1024
#define POHELDU_LARGEST_REGION 1048576

/*
 * The length of a heap with regions of this length, and of its metadata; 0 where no heap has such
 * regions.
 */
#define POHELDU_HEAP_BYTES(region) \
    (POHELDU_IS_REGION(region) ? POHELDU_CLASSES * (size_t)(region) : 0)
#define POHELDU_METADATA_BYTES(region) \
    (POHELDU_IS_REGION(region) ? POHELDU_FIELD_BYTES + POHELDU_BITMAPS_BYTES_(region) : 0)
#define POHELDU_IS_REGION(region)                                                                 \
    ((size_t)(region) >= POHELDU_SMALLEST_REGION && (size_t)(region) <= POHELDU_LARGEST_REGION && \
     ((size_t)(region) & ((size_t)(region)-1)) == 0)

/*
 * A class, 0 to 11, in such a heap: the bytes of its slots, how many slots it has, and how many
 * objects it takes.
 */
#define POHELDU_SLOT_BYTES(c) ((size_t)8 << (c))
#define POHELDU_SLOTS(region, c) ((size_t)(region) / POHELDU_SLOT_BYTES(c))
#define POHELDU_CAPACITY(region, c) (POHELDU_SLOTS(region, c) / 2)

/*
 * How many slots such a heap has in all classes: no inspection lists more, and so a list of as many
 * numbers is never too short. 0 where no heap has such regions.
 */
#define POHELDU_ALL_SLOTS(region) (POHELDU_IS_REGION(region) ? POHELDU_SUM_SLOTS_(region) : 0)
#define POHELDU_SUM_SLOTS_(region)                                                    \
    (POHELDU_SLOTS(region, 0) + POHELDU_SLOTS(region, 1) + POHELDU_SLOTS(region, 2) + \
     POHELDU_SLOTS(region, 3) + POHELDU_SLOTS(region, 4) + POHELDU_SLOTS(region, 5) + \
     POHELDU_SLOTS(region, 6) + POHELDU_SLOTS(region, 7) + POHELDU_SLOTS(region, 8) + \
     POHELDU_SLOTS(region, 9) + POHELDU_SLOTS(region, 10) + POHELDU_SLOTS(region, 11))

/* No object is longer: 16,384 bytes, a slot of the last class. */
#define POHELDU_LARGEST_OBJECT POHELDU_SLOT_BYTES(POHELDU_CLASSES - 1)

/*
 * Metadata: the generator's two halves, z and w, then for each class the number of its live slots,
 * then the pattern, four bytes each, lowest first; then for each class a bit for each slot, eight
 * to a byte, rounded up. What opening and requests leave counts as many slots as have their bit
 * set.
 *
 * Other metadata is believed in its counts, by which a class is at capacity, until they give it
 * away. Then CORRUPT_METADATA refuses: every request, read and inspection while the count of any
 * class is above its capacity; an allocation that finds no clear slot; a free of a live slot where
 * the count is 0.
 */
#define POHELDU_PATTERN_AT ((2 + POHELDU_CLASSES) * sizeof(uint32_t))
#define POHELDU_FIELD_BYTES (POHELDU_PATTERN_AT + sizeof(uint32_t))
#define POHELDU_BITMAP_BYTES(region, c) ((POHELDU_SLOTS(region, c) + 7) / 8)
#define POHELDU_BITMAPS_BYTES_(region)                                   \
    (POHELDU_BITMAP_BYTES(region, 0) + POHELDU_BITMAP_BYTES(region, 1) + \
     POHELDU_BITMAP_BYTES(region, 2) + POHELDU_BITMAP_BYTES(region, 3) + \
     POHELDU_BITMAP_BYTES(region, 4) + POHELDU_BITMAP_BYTES(region, 5) + \
     POHELDU_BITMAP_BYTES(region, 6) + POHELDU_BITMAP_BYTES(region, 7) + \
     POHELDU_BITMAP_BYTES(region, 8) + POHELDU_BITMAP_BYTES(region, 9) + \
     POHELDU_BITMAP_BYTES(region, 10) + POHELDU_BITMAP_BYTES(region, 11))

/* ---- Answers */

/*
 * number: 0 where the call was served, else a poheldu_refusal. value: what the call answers, 0
 * where it was refused.
 */
typedef struct {
    uint32_t number, value;
} poheldu_answer;

/*
 * number as above; value: how many bytes a read shows. They are those from start on of the heap
 * (of_page 0) or of the page that the caller lends (of_page 1). On refusal, the empty part of the
 * page: of_page 1, value and start 0.
 */
typedef struct {
    uint32_t number, value, of_page, start;
} poheldu_part;

/* A slot, live or clear: its class and its number there, both from 0, and where its bytes lie. */
typedef struct {
    uint32_t size_class, number, start, len;
} poheldu_slot;

/*
 * number as above; mask: bit r for each winning replica r; value: how many they are; replica: the
 * lowest-numbered of them, so that a display that names a winner does not jump between equal ones.
 * All 0 but the number on refusal; poheldu_vote_whole says where the value is not.
 */
typedef struct {
    uint32_t number, mask, value, replica;
} poheldu_verdict;

typedef enum {
    POHELDU_SERVED = 0,
    POHELDU_UNUSABLE_SEED = 1,     /* opening with a z or w that is zero or freezes */
    POHELDU_HEAP_LENGTH = 2,       /* not 12 times a power of two from 1,024 to 1,048,576 */
    POHELDU_METADATA_LENGTH = 3,   /* not poheldu_metadata_length of the heap's length */
    POHELDU_MALFORMED_REQUEST = 4, /* not 16 bytes, no such operation, a byte set that must be 0 */
    POHELDU_UNSUPPORTED_SIZE = 5,  /* more than 16,384 bytes */
    POHELDU_CLASS_TOO_SMALL = 6,   /* the heap has fewer than two slots of that size */
    POHELDU_CLASS_AT_CAPACITY = 7, /* half the slots of that size are live */
    POHELDU_OUT_OF_RANGE = 8,      /* a pointer outside the heap, an offset at or past its end */
    POHELDU_NOT_A_SLOT_START = 9,  /* a free where no slot starts */
    POHELDU_NOT_ALLOCATED = 10,    /* a free of what is not live */
    POHELDU_INVALID_VOTE = 11,     /* a number of replicas or a length that is not allowed */
    POHELDU_NO_AGREEMENT = 12,     /* no two blocks are equal */
    POHELDU_CORRUPT_METADATA = 13, /* live counts that opening and requests never leave */
    POHELDU_LIST_TOO_SHORT = 14,   /* an inspection finds more slots than its list has room for */
    POHELDU_INVALID_OUTPUTS = 15   /* a whole vote's replicas or a length that is not allowed */
} poheldu_refusal;

/*
 * The name of a number in words, "not allocated"; "unknown" where there is none. From any thread,
 * at any time.
 *
 *     fprintf(stderr, "heap: %s\n", poheldu_name(a.number));
 */
static inline const char *poheldu_name(uint32_t number)
{
    static const char *const names[] = {
        "served",           "unusable seed",     "heap length",
        "metadata length",  "malformed request", "unsupported size",
        "class too small",  "class at capacity", "out of range",
        "not a slot start", "not allocated",     "invalid vote",
        "no agreement",     "corrupt metadata",  "list too short",
        "invalid outputs",
    };
    return number < sizeof names / sizeof *names ? names[number] : "unknown";
}

/* ---- The library */

/*
 * Opens a heap: writes fresh metadata, in which nothing is allocated, and fills every slot with
 * the pattern, over and over from the slot's first byte; that takes little longer than a memset of
 * the heap. Bytes outside slots, in regions that are shorter than a slot of their class, are kept.
 * Value 0. Refuses HEAP_LENGTH, METADATA_LENGTH, UNUSABLE_SEED.
 *
 * heap, heap_len          written: what its slots held is lost
 * metadata, metadata_len  written; as long as poheldu_metadata_length(heap_len)
 * z, w                    seeds, as poheldu_random_seeds gives them; poheldu_usable_seeds says
 *                         which are taken. The same seeds place the same requests in the same
 *                         slots, so take new ones for each run
 * pattern                 what clear slots, those that are not live, hold for poheldu_inspect to
 *                         look for: four bytes, the number's, lowest first. Any will do, but a
 *                         stray write of just these bytes is not seen: take one that is unlikely in
 *                         data. 0xB5E3C7A9, 0xA7D1F3E5 and 0xC9B3E1D7 are: the bytes of each are
 *                         all different, none of them 0 or a character, and as a pointer each leads
 *                         nowhere. The pattern is stored in the metadata, and so no secret from
 *                         those who read these
 *
 * Replicas that vote take a pattern each, that differs from the others' in every byte, as these
 * three do. What a faulty program reads of an object after its free, or of a new one before it
 * writes it, is the pattern: with one for all, every replica reads the same there, and the vote
 * passes what they make of it. A program that only decides by what it reads there, as whether it
 * is more than a number, writes one of two outputs, so that of three replicas two still agree.
 *
 *     poheldu_answer a = poheldu_open(heap, sizeof heap, metadata, sizeof metadata, z, w, pattern);
 *     if (a.number != POHELDU_SERVED)
 *         abort();
 */
POHELDU_NODISCARD poheldu_answer poheldu_open(uint8_t *heap, size_t heap_len, uint8_t *metadata,
                                              size_t metadata_len, uint32_t z, uint32_t w,
                                              uint32_t pattern);

/*
 * Serves a request, of which poheldu_pack makes the bytes: for programs that have requests as
 * bytes. The functions with plain arguments below make and serve one each, and say what it does and
 * answers. Refuses HEAP_LENGTH, METADATA_LENGTH, CORRUPT_METADATA, MALFORMED_REQUEST, then what the
 * request's operation refuses.
 *
 * heap, heap_len          written by copies and frees; only its length matters to the answer
 * metadata, metadata_len  read by all, written by allocate and free
 * request, request_len    16 bytes
 * source, source_len      what a copy reads; else not looked at
 * page, page_len          the fallback page: what POHELDU_READ shows where the offset lies in no
 *                         live object; only its length matters to the answer
 *
 * The value of POHELDU_READ is how many bytes it shows; poheldu_read also says where they lie.
 *
 * Overlap: here the caller sees to it that the source of a copy shares no byte with the heap.
 *
 *     uint8_t request[POHELDU_REQUEST_BYTES];
 *     poheldu_pack(request, POHELDU_FREE, 640, 0);
 *     poheldu_answer a = poheldu_serve(heap, sizeof heap, metadata, sizeof metadata,
 *                                      request, sizeof request, NULL, 0, NULL, 0);
 */
poheldu_answer poheldu_serve(uint8_t *heap, size_t heap_len, uint8_t *metadata, size_t metadata_len,
                             const uint8_t *request, size_t request_len, const uint8_t *source,
                             size_t source_len, const uint8_t *page, size_t page_len);

/*
 * Where the bytes of an object lie, for programs that look at them without a copy: those from the
 * offset on, up to count, and none past the end of the live object that the offset lies in. Where
 * it lies in none, those at the front of the page, up to count; never some of both. No byte is
 * copied or changed. Refuses HEAP_LENGTH, METADATA_LENGTH, CORRUPT_METADATA, OUT_OF_RANGE.
 *
 * heap, heap_len          the heap; only its length matters
 * metadata, metadata_len  read
 * offset                  at the object's start or further on
 * count                   how many bytes are wanted, from 0 to UINT32_MAX
 * page, page_len          the fallback page, which may lie in the heap; only its length matters
 *
 *     poheldu_part r = poheldu_read(heap, sizeof heap, metadata, sizeof metadata, 640, 80,
 *                                   page, page_len);
 *     fwrite((r.of_page ? page : heap) + r.start, 1, r.value, stdout);
 */
POHELDU_NODISCARD poheldu_part poheldu_read(const uint8_t *heap, size_t heap_len,
                                            const uint8_t *metadata, size_t metadata_len,
                                            uint32_t offset, uint32_t count, const uint8_t *page,
                                            size_t page_len);

/*
 * Inspects a heap: lists, rising, the offsets at which those clear slots start that do not hold the
 * pattern throughout. Since opening or a free filled such a slot, something wrote to it that had
 * no object there: past the end of another, or after the free of its own. The value is how many
 * slots are listed. Refuses HEAP_LENGTH, METADATA_LENGTH, CORRUPT_METADATA (a count above its
 * class's capacity, and nothing else), LIST_TOO_SHORT.
 *
 * It does not see what was written to a live slot, where nobody but its owner knows what belongs:
 * neither over its object, nor past the size that was asked for as long as it stays in the slot, as
 * the last three bytes of an object of 5, which has 8. Nor what was written to a slot that was
 * allocated and freed since, to bytes outside slots, or as the pattern has it. It is no request,
 * and requests answer the same whatever it would list.
 *
 * heap, heap_len          read: this is the one call whose answer depends on the heap's bytes
 * metadata, metadata_len  read
 * list, list_len          written: the offsets go to its front, further entries are kept. list_len
 *                         counts numbers, not bytes; a list of POHELDU_ALL_SLOTS is never too short
 *
 * It reads the bits of all slots and every byte of the clear ones, all of the heap where nothing is
 * live: something for the end of a job, or for now and then in a long one, not for each request.
 *
 *     static uint32_t found[POHELDU_ALL_SLOTS(1024)];
 *     poheldu_answer a = poheldu_inspect(heap, sizeof heap, metadata, sizeof metadata,
 *                                        found, sizeof found / sizeof *found);
 *     for (uint32_t i = 0; i < a.value; i++)
 *         fprintf(stderr, "stray bytes in the slot at %u\n", found[i]);
 */
POHELDU_NODISCARD poheldu_answer poheldu_inspect(const uint8_t *heap, size_t heap_len,
                                                 const uint8_t *metadata, size_t metadata_len,
                                                 uint32_t *list, size_t list_len);

/*
 * A vote of replicas on a block of output: the content that most replicas share wins, if two or
 * more share it; at equal numbers that of the lowest-numbered replica among those tied. Replicas
 * open their heaps with seeds and a pattern of their own (poheldu_open says why). For outputs that
 * are longer than a block there is poheldu_vote_whole. Refuses INVALID_VOTE, NO_AGREEMENT.
 *
 * blocks, blocks_len  the replicas' blocks, one after another: replicas times block_len bytes
 * replicas            3 to 16
 * block_len           1 to 4,096
 * output, output_len  at least block_len bytes; the winning block goes to its front, further bytes
 *                     are kept
 *
 *     static uint8_t reports[3][256], agreed[256];
 *     poheldu_verdict v = poheldu_vote(reports[0], sizeof reports, 3, 256, agreed, sizeof agreed);
 */
POHELDU_NODISCARD poheldu_verdict poheldu_vote(const uint8_t *blocks, size_t blocks_len,
                                               size_t replicas, size_t block_len, uint8_t *output,
                                               size_t output_len);

/*
 * A vote of replicas on whole outputs of one length. It goes through them in blocks of 4,096 bytes,
 * the last perhaps shorter, and votes on each as poheldu_vote does. A replica that does not win a
 * block takes no part in later ones, so that two may remain. The answer names those left at the
 * end: exactly those whose output is the output written. Refuses INVALID_OUTPUTS, NO_AGREEMENT.
 *
 * NO_AGREEMENT, where no two of those still in have the same block, is the one refusal that has a
 * value, the block's number from 0, and that leaves bytes written: the blocks before it. No later
 * byte is touched; mask and replica are 0.
 *
 * An output that more than half of the replicas have wins: of three, any two that share one. With
 * more than three, what most share need not win, since blocks are voted on one by one. Where seven
 * have the blocks xp, xp, xp, yq, yq, yr and ys, four have y in front, and yq wins with two.
 *
 * outputs, outputs_len  the replicas' outputs, one after another: replicas times length bytes
 * replicas              3 to 16
 * length                1 to 1,048,576
 * output, output_len    at least length bytes; the output of those left goes to its front, further
 *                       bytes are kept
 *
 * Where outputs may differ in length, put each into a buffer of the length that all have room in:
 * its length in front, so that this is voted on too, and zeros behind. examples/readout.c does so.
 *
 *     static uint8_t logs[3][65536], agreed[65536];
 *     poheldu_verdict v = poheldu_vote_whole(logs[0], sizeof logs, 3, 65536,
 *                                            agreed, sizeof agreed);
 *     if (v.number == POHELDU_NO_AGREEMENT)
 *         fprintf(stderr, "agreed on the first %u bytes alone\n", v.value * 4096);
 */
POHELDU_NODISCARD poheldu_verdict poheldu_vote_whole(const uint8_t *outputs, size_t outputs_len,
                                                     size_t replicas, size_t length,
                                                     uint8_t *output, size_t output_len);

/*
 * The length of the metadata of a heap of heap_len bytes; 0 where no heap has that length. Where
 * the length is a constant, POHELDU_METADATA_BYTES is the same. From any thread, at any time.
 *
 *     uint8_t *metadata = (uint8_t *)malloc(poheldu_metadata_length(heap_len));
 */
POHELDU_NODISCARD size_t poheldu_metadata_length(size_t heap_len);

/*
 * Where slots lie, how many there are, and what clear ones hold. For programs that keep a heap's
 * buffers as a poheldu_heap, poheldu_slot_of, poheldu_slot_at, poheldu_slot_count and
 * poheldu_pattern are the same. Nothing is refused: where a request would be for HEAP_LENGTH or
 * METADATA_LENGTH, the answer is 0 throughout.
 *
 * heap_len                the heap's length, whose bytes do not matter
 * metadata, metadata_len  read
 *
 * The slot of a class with a number; len 0, and all else too, where there is none such. The slot
 * that an offset lies in, at its start or further on; likewise where it lies in none. The number of
 * slots in all classes. The pattern.
 *
 *     poheldu_slot s = poheldu_find_slot(sizeof heap, metadata, sizeof metadata, 640);
 *     printf("class %u, slot %u of %zu\n", s.size_class, s.number,
 *            poheldu_count_slots(sizeof heap, metadata, sizeof metadata));
 */
POHELDU_NODISCARD poheldu_slot poheldu_nth_slot(size_t heap_len, const uint8_t *metadata,
                                                size_t metadata_len, uint32_t size_class,
                                                uint32_t number);
POHELDU_NODISCARD poheldu_slot poheldu_find_slot(size_t heap_len, const uint8_t *metadata,
                                                 size_t metadata_len, uint32_t offset);
POHELDU_NODISCARD size_t poheldu_count_slots(size_t heap_len, const uint8_t *metadata,
                                             size_t metadata_len);
POHELDU_NODISCARD uint32_t poheldu_stored_pattern(size_t heap_len, const uint8_t *metadata,
                                                  size_t metadata_len);

/* ---- Seeds
 *
 * The draws, and so the slots of all objects, follow from the seeds. Take both halves at random, as
 * poheldu_random_seeds does, and never z alone: a new z with the same w places everything as
 * before, but for objects of up to 8 bytes in regions of 1,048,576, where z shows in one bit. Take
 * new ones for each run and for each replica in it, so that a mistake which does harm in one layout
 * need not do the same in another.
 *
 * To repeat a run, note both halves, the length of the regions and the pattern: with these, the
 * same calls get the same answers, and a program that reads clear slots reads the same bytes.
 */

/* The two halves of the generator that draws slots. */
typedef struct {
    uint32_t z, w;
} poheldu_seeds;

/*
 * Whether poheldu_open takes these seeds. A draw makes of z 36,969 times its low 16 bits plus its
 * high 16, and of w the same with 18,000. Some values freeze: draws do not change them, or change
 * them once and never again, so that one half of all draws is the same. These are zero in either
 * half, 0x9068FFFF in z, and 0x464FFFFF, 0x8C9FFFFE and 0xD2EFFFFD in w. They are the multiples of
 * one number for each half, and no other value ever freezes. From any thread, at any time.
 *
 *     poheldu_seeds noted = {z, w};
 *     if (!poheldu_usable_seeds(noted))
 *         fprintf(stderr, "no heap was opened with these\n");
 */
POHELDU_NODISCARD static inline int poheldu_usable_seeds(poheldu_seeds seeds)
{
    return seeds.z % (UINT32_C(36969) * 65536 - 1) != 0 &&
           seeds.w % (UINT32_C(18000) * 65536 - 1) != 0;
}

/*
 * New seeds that poheldu_open takes, from the system's random source (getrandom). Where the source
 * fails, both halves are 0, which poheldu_open refuses: its answer is all there is to check. From
 * any thread, at any time.
 *
 *     poheldu_seeds s = poheldu_random_seeds();
 *     poheldu_answer a = poheldu_open(heap, sizeof heap, metadata, sizeof metadata, s.z, s.w,
 *                                     pattern);
 *     if (a.number == POHELDU_UNUSABLE_SEED)
 *         fprintf(stderr, "no random seeds\n");
 */
POHELDU_NODISCARD static inline poheldu_seeds poheldu_random_seeds(void)
{
    const poheldu_seeds none = {0, 0};
    poheldu_seeds drawn;
    /* Six seeds in four billion are refused: four such in a row are no random source's. */
    for (int tries = 0; tries < 4; tries++)
        if (getrandom(&drawn, sizeof drawn, 0) == (ssize_t)sizeof drawn &&
            poheldu_usable_seeds(drawn))
            return drawn;
    return none;
}

/* ---- A heap's buffers as one thing */

/* The buffers of one heap, lent to each call. */
typedef struct {
    uint8_t *heap;
    size_t heap_len;
    uint8_t *metadata;
    size_t metadata_len;
} poheldu_heap;

/*
 * Opens a heap, as poheldu_open does, with the size classes that stand above.
 *
 *     poheldu_answer a = poheldu_open_heap(h, poheldu_random_seeds(), pattern);
 *     if (a.number != POHELDU_SERVED)
 *         fprintf(stderr, "heap: %s\n", poheldu_name(a.number));
 */
POHELDU_NODISCARD static inline poheldu_answer poheldu_open_heap(const poheldu_heap *h,
                                                                 poheldu_seeds seeds,
                                                                 uint32_t pattern)
{
    return poheldu_open(h->heap, h->heap_len, h->metadata, h->metadata_len, seeds.z, seeds.w,
                        pattern);
}

/*
 * Inspects a heap, as poheldu_inspect does.
 *
 *     poheldu_answer a = poheldu_inspect_heap(h, list, list_len);
 *     if (a.number == POHELDU_SERVED && a.value > 0)
 *         fprintf(stderr, "%u slots were written to\n", a.value);
 */
POHELDU_NODISCARD static inline poheldu_answer poheldu_inspect_heap(const poheldu_heap *h,
                                                                    uint32_t *list, size_t list_len)
{
    return poheldu_inspect(h->heap, h->heap_len, h->metadata, h->metadata_len, list, list_len);
}

/* ---- Objects, by pointer
 *
 * Each is one request with plain arguments and, beside what it names, refuses HEAP_LENGTH,
 * METADATA_LENGTH and CORRUPT_METADATA first. POHELDU_OUT_OF_RANGE stands for every pointer that
 * does not lead into the heap, null among them.
 */

/*
 * A new object of size bytes, or null where poheldu_allocate_at, which says why, is refused. Its
 * bytes are what the slot held: the pattern, unless something wrote there. Size 0 gives an object
 * of 8 bytes, so that null means a refusal alone.
 *
 *     struct signal *s = (struct signal *)poheldu_allocate(h, sizeof *s);
 *     if (s == NULL)
 *         return;
 */
POHELDU_NODISCARD static inline void *poheldu_allocate(const poheldu_heap *h, size_t size);

/*
 * Frees the object that starts at p, and fills its slot with the pattern, all bytes of it. The
 * value is the slot's size. Refuses OUT_OF_RANGE, NOT_A_SLOT_START, NOT_ALLOCATED,
 * CORRUPT_METADATA. Null is no object: nothing is done, and that is served with value 0. Since a
 * free that is refused does no harm, and leaves nothing to be done, the answer may be dropped, as
 * after free(); it is for those who look for wrong frees.
 *
 *     poheldu_free(h, p);
 */
static inline poheldu_answer poheldu_free(const poheldu_heap *h, const void *p);

/*
 * The number of bytes from p to the end of the live object that p points into, which may be more
 * than were asked for; 0 where p points into none, outside the heap or is null.
 *
 *     if (poheldu_remaining(h, p) < 100)
 *         return;
 */
POHELDU_NODISCARD static inline size_t poheldu_remaining(const poheldu_heap *h, const void *p);

/* Bytes of an object or of a page, where they lie. */
typedef struct {
    const uint8_t *bytes;
    size_t len;
} poheldu_view;

/*
 * Shows the object that p points into, without a copy: its bytes from p on, up to count, and none
 * past its end. Where it is freed, or p points into no object, the page stands in: its first bytes,
 * up to count and at most UINT32_MAX. Where p is null or outside the heap, or a length or the
 * metadata is refused, no bytes are shown: the page with a length of 0. So a program that prints
 * len bytes needs no case for any of these. One that wants to know lends no page, null and 0: then
 * bytes is null exactly where p points into no live object or the call is refused.
 *
 * The bytes are the object's own: what is written to it later shows in them, and once it is freed
 * they are filled with the pattern and may become another object's.
 *
 *     poheldu_view v = poheldu_look(h, p, 80, "[freed]", 7);
 *     fwrite(v.bytes, 1, v.len, stdout);
 */
POHELDU_NODISCARD static inline poheldu_view poheldu_look(const poheldu_heap *h, const void *p,
                                                          size_t count, const void *page,
                                                          size_t page_len);

/*
 * The three copies: to is a pointer into an object, at its start or further on, and no byte past
 * that object's end is written. The value is how many bytes were written: 0 where to points into no
 * live object. Refuses OUT_OF_RANGE.
 *
 * "Overlap: safe" means that the source may lie in the heap, in another object or in the same, over
 * what is written: it is read before anything is written, as memmove does. For such a source the
 * call takes POHELDU_LARGEST_OBJECT + 1 (16,385) bytes of stack, for others none. A source that
 * shares a byte with the metadata stays the caller's fault.
 */

/*
 * Copies len bytes. from may be null where len is 0. Overlap: safe.
 *
 *     if (poheldu_copy_bytes(h, p, data, len).value < len)
 *         fprintf(stderr, "cut short\n");
 */
static inline poheldu_answer poheldu_copy_bytes(const poheldu_heap *h, void *to, const void *from,
                                                size_t len);

/*
 * Copies a string with its closing zero. One that does not fit is clipped and still ends: the
 * object's last byte is zero, and the value, which counts it, is at most the string's length. Of
 * from no byte is read after its first zero, nor after POHELDU_LARGEST_OBJECT + 1 bytes, nor past
 * the end of the heap if it lies in it. Overlap: safe.
 *
 *     if (poheldu_copy_string(h, p, text).value <= strlen(text))
 *         fprintf(stderr, "cut short\n");
 */
static inline poheldu_answer poheldu_copy_string(const poheldu_heap *h, void *to, const char *from);

/*
 * Copies a string into a field of count bytes: from before its first zero, at most count bytes of
 * it, then zeros to the field's end. As with strncpy, a string of count bytes or more gets no
 * closing zero, and of from no byte is read after its first zero nor after count bytes. The other
 * bounds of poheldu_copy_string hold too. from may be null where count is 0. Overlap: safe.
 *
 *     poheldu_copy_padded(h, p, text, 16);
 */
static inline poheldu_answer poheldu_copy_padded(const poheldu_heap *h, void *to, const char *from,
                                                 size_t count);

/* ---- Objects, by offset
 *
 * The same for programs that keep offsets, which count from the heap's first byte. Every function
 * that takes an offset refuses OUT_OF_RANGE for one that is not below the heap's length.
 */

/*
 * Where an offset lies in the caller's heap; null where it lies outside.
 *
 *     char *name = (char *)poheldu_at(h, offset);
 */
static inline void *poheldu_at(const poheldu_heap *h, size_t offset)
{
    return offset < h->heap_len ? h->heap + offset : NULL;
}

/* A number as a request has it: one that does not fit into 32 bits is the largest that does. */
static inline uint32_t poheldu_word_(size_t number)
{
    return number < UINT32_MAX ? (uint32_t)number : UINT32_MAX;
}

/*
 * The offset of a pointer into the caller's heap; UINT32_MAX, which is out of range, where it
 * points elsewhere or is null.
 *
 *     uint32_t offset = poheldu_offset(h, p);
 */
static inline uint32_t poheldu_offset(const poheldu_heap *h, const void *p)
{
    const uintptr_t at = (uintptr_t)p, start = (uintptr_t)h->heap;
    return at >= start && at - start < h->heap_len ? poheldu_word_(at - start) : UINT32_MAX;
}

/* What a request asks for. */
typedef enum {
    POHELDU_ALLOCATE = 0,
    POHELDU_FREE = 1,
    POHELDU_REMAINING = 2,
    POHELDU_COPY_BYTES = 3,
    POHELDU_COPY_STRING = 4,
    POHELDU_COPY_PADDED = 5,
    POHELDU_READ = 6
} poheldu_operation;

#define POHELDU_REQUEST_BYTES 16

/*
 * The bytes of a request: the operation, its size or offset, its count (POHELDU_COPY_PADDED and
 * POHELDU_READ, else 0), and 0, each as four bytes, lowest first.
 *
 *     uint8_t request[POHELDU_REQUEST_BYTES];
 *     poheldu_pack(request, POHELDU_ALLOCATE, 100, 0);
 */
static inline void poheldu_pack(uint8_t request[POHELDU_REQUEST_BYTES], uint32_t operation,
                                uint32_t argument, uint32_t count)
{
    const uint32_t words[4] = {operation, argument, count, 0};
    for (int i = 0; i < POHELDU_REQUEST_BYTES; i++)
        request[i] = (uint8_t)(words[i / 4] >> (i % 4 * 8));
}

/*
 * Packs a request and serves it. It lends no page, so that POHELDU_READ has the value 0 where the
 * offset lies in no live object. Overlap: the caller sees to it, as for poheldu_serve.
 *
 *     poheldu_answer a = poheldu_request(h, POHELDU_COPY_BYTES, 640, 0, "abc", 3);
 */
static inline poheldu_answer poheldu_request(const poheldu_heap *h, uint32_t operation,
                                             uint32_t argument, uint32_t count, const void *source,
                                             size_t source_len)
{
    uint8_t request[POHELDU_REQUEST_BYTES];
    poheldu_pack(request, operation, argument, count);
    return poheldu_serve(h->heap, h->heap_len, h->metadata, h->metadata_len, request,
                         sizeof request, (const uint8_t *)source, source_len, NULL, 0);
}

/*
 * Takes a slot for size bytes, 0 among them. The value is its offset: where that is, the draws say,
 * and not the caller. Refuses UNSUPPORTED_SIZE, CLASS_TOO_SMALL, CLASS_AT_CAPACITY,
 * CORRUPT_METADATA.
 *
 *     poheldu_answer a = poheldu_allocate_at(h, 100);
 *     if (a.number == POHELDU_CLASS_AT_CAPACITY)
 *         fprintf(stderr, "no room for 100 bytes\n");
 */
POHELDU_NODISCARD static inline poheldu_answer poheldu_allocate_at(const poheldu_heap *h,
                                                                   size_t size)
{
    return poheldu_request(h, POHELDU_ALLOCATE, poheldu_word_(size), 0, NULL, 0);
}

/*
 * Frees the object that starts at an offset, and fills its slot with the pattern. The value is its
 * slot's size. Refuses OUT_OF_RANGE, NOT_A_SLOT_START, NOT_ALLOCATED, CORRUPT_METADATA.
 *
 *     poheldu_free_at(h, offset);
 */
static inline poheldu_answer poheldu_free_at(const poheldu_heap *h, size_t offset)
{
    return poheldu_request(h, POHELDU_FREE, poheldu_word_(offset), 0, NULL, 0);
}

/*
 * The value is the number of bytes from an offset to the end of the live object that it lies in; 0
 * where it lies in none. Refuses OUT_OF_RANGE.
 *
 *     poheldu_answer a = poheldu_remaining_at(h, offset);
 */
POHELDU_NODISCARD static inline poheldu_answer poheldu_remaining_at(const poheldu_heap *h,
                                                                    size_t offset)
{
    return poheldu_request(h, POHELDU_REMAINING, poheldu_word_(offset), 0, NULL, 0);
}

/*
 * Shows the object that an offset lies in, without a copy, as poheldu_look does. It shows nothing
 * where poheldu_read, which says why, is refused.
 *
 *     poheldu_view v = poheldu_look_at(h, offset, SIZE_MAX, page, page_len);
 */
POHELDU_NODISCARD static inline poheldu_view poheldu_look_at(const poheldu_heap *h, size_t offset,
                                                             size_t count, const void *page,
                                                             size_t page_len)
{
    const poheldu_part part =
        poheldu_read(h->heap, h->heap_len, h->metadata, h->metadata_len, poheldu_word_(offset),
                     poheldu_word_(count), (const uint8_t *)page, page_len);
    const poheldu_view view = {part.of_page ? (const uint8_t *)page : h->heap + part.start,
                               part.value};
    return view;
}

/* Whether two buffers share a byte. */
static inline int poheldu_overlap_(const void *a, size_t a_len, const void *b, size_t b_len)
{
    const uintptr_t p = (uintptr_t)a, q = (uintptr_t)b;
    return p < q ? q - p < a_len && b_len > 0 : p - q < b_len && a_len > 0;
}

/*
 * A copy from a source that shares bytes with the heap, by way of a buffer that shares none. The
 * buffer takes the source's first 16,385 bytes, and that makes no difference. The checks do not
 * look at the source. What is written is the front of the copy's content, as far as the object
 * goes: at most 16,384 bytes. Byte i of the content depends on the source's bytes 0 to i alone (it
 * is byte i, or 0 from the first zero on in a padded copy), so the first 16,385 are the same, and a
 * content that ends sooner because the source does still has as many. So a string that is longer
 * than its object is so here too, and closed.
 */
POHELDU_APART poheldu_answer poheldu_copy_staged_(const poheldu_heap *h, uint32_t operation,
                                                  size_t offset, size_t count, const void *source,
                                                  size_t len)
{
    uint8_t stage[POHELDU_LARGEST_OBJECT + 1];
    const size_t staged = len < sizeof stage ? len : sizeof stage;
    memcpy(stage, source, staged);
    return poheldu_request(h, operation, poheldu_word_(offset), poheldu_word_(count), stage,
                           staged);
}

/*
 * A copy from any source but the metadata; one that shares no byte with the heap is lent as it is.
 */
static inline poheldu_answer poheldu_copy_(const poheldu_heap *h, uint32_t operation, size_t offset,
                                           size_t count, const void *source, size_t len)
{
    if (poheldu_overlap_(source, len, h->heap, h->heap_len))
        return poheldu_copy_staged_(h, operation, offset, count, source, len);
    return poheldu_request(h, operation, poheldu_word_(offset), poheldu_word_(count), source, len);
}

/*
 * Copies len bytes to an offset, and no further than the object's end. The value is how many bytes
 * were written; 0 where the offset lies in no live object. Refuses OUT_OF_RANGE. Overlap: safe.
 *
 *     poheldu_copy_bytes_at(h, offset, data, len);
 */
static inline poheldu_answer poheldu_copy_bytes_at(const poheldu_heap *h, size_t offset,
                                                   const void *source, size_t len)
{
    return poheldu_copy_(h, POHELDU_COPY_BYTES, offset, 0, source, len);
}

/*
 * The same of the source through its first zero byte, or to its end where it has none. Where that
 * is longer than what is left of the object, it is clipped and closed: the object's last byte
 * becomes zero. A string that just fits without a zero gets none. Overlap: safe.
 *
 *     poheldu_copy_string_at(h, offset, data, len);
 */
static inline poheldu_answer poheldu_copy_string_at(const poheldu_heap *h, size_t offset,
                                                    const void *source, size_t len)
{
    return poheldu_copy_(h, POHELDU_COPY_STRING, offset, 0, source, len);
}

/*
 * The same of count bytes: the source before its first zero byte or end, and then zeros. Overlap:
 * safe.
 *
 *     poheldu_copy_padded_at(h, offset, data, len, 16);
 */
static inline poheldu_answer poheldu_copy_padded_at(const poheldu_heap *h, size_t offset,
                                                    const void *source, size_t len, size_t count)
{
    return poheldu_copy_(h, POHELDU_COPY_PADDED, offset, count, source, len);
}

/* ---- Canaries
 *
 * A clear slot holds the pattern as a canary: a write past the end of an object or after its free
 * changes it, unless another object is live there. An inspection lists such slots; what they are,
 * and what was written to them, these functions say.
 */

/*
 * How many slots a heap has in all classes: a list of so many numbers is never too short. 0 where a
 * length is refused. Where the length is a constant, POHELDU_ALL_SLOTS is the same.
 *
 *     uint32_t *found = (uint32_t *)malloc(poheldu_slot_count(h) * sizeof *found);
 */
POHELDU_NODISCARD static inline size_t poheldu_slot_count(const poheldu_heap *h)
{
    return poheldu_count_slots(h->heap_len, h->metadata, h->metadata_len);
}

/*
 * The slot of a class with a number. Its len is 0, and all else too, where the heap has none such.
 *
 *     for (uint32_t i = 0; poheldu_slot_of(h, 3, i).len > 0; i++)
 *         putchar(poheldu_remaining_at(h, poheldu_slot_of(h, 3, i).start).value > 0 ? '#' : '.');
 */
POHELDU_NODISCARD static inline poheldu_slot poheldu_slot_of(const poheldu_heap *h,
                                                             size_t size_class, size_t number)
{
    return poheldu_nth_slot(h->heap_len, h->metadata, h->metadata_len, poheldu_word_(size_class),
                            poheldu_word_(number));
}

/*
 * The slot that an offset lies in, at its start or further on. Its len is 0, and all else too,
 * where it lies in none.
 *
 *     poheldu_slot s = poheldu_slot_at(h, list[0]);
 *     fprintf(stderr, "class %u, slot %u\n", s.size_class, s.number);
 */
POHELDU_NODISCARD static inline poheldu_slot poheldu_slot_at(const poheldu_heap *h, size_t offset)
{
    return poheldu_find_slot(h->heap_len, h->metadata, h->metadata_len, poheldu_word_(offset));
}

/*
 * The pattern that the metadata have, as the heap was opened with it; 0 where a length is refused.
 *
 *     poheldu_answer a = poheldu_open_heap(h, poheldu_random_seeds(), poheldu_pattern(h));
 */
POHELDU_NODISCARD static inline uint32_t poheldu_pattern(const poheldu_heap *h)
{
    return poheldu_stored_pattern(h->heap_len, h->metadata, h->metadata_len);
}

/*
 * Shows what was written to a slot of this heap that an inspection lists: its bytes from the first
 * to the last that are not the pattern's. Where it holds the pattern throughout, none: null and 0.
 *
 *     poheldu_view v = poheldu_stray_bytes(h, poheldu_slot_at(h, list[0]));
 *     fwrite(v.bytes, 1, v.len, stderr);
 */
POHELDU_NODISCARD static inline poheldu_view poheldu_stray_bytes(const poheldu_heap *h,
                                                                 poheldu_slot slot)
{
    const uint32_t pattern = poheldu_pattern(h);
    poheldu_view view = {NULL, 0};
    for (uint32_t i = 0; i < slot.len; i++) {
        const uint8_t *const at = h->heap + slot.start + i;
        if (*at == (uint8_t)(pattern >> i % 4 * 8))
            continue;
        if (view.bytes == NULL)
            view.bytes = at;
        view.len = (size_t)(at - view.bytes) + 1;
    }
    return view;
}

/* ---- What the functions by pointer do */

static inline void *poheldu_allocate(const poheldu_heap *h, size_t size)
{
    const poheldu_answer a = poheldu_allocate_at(h, size);
    return a.number == POHELDU_SERVED ? poheldu_at(h, a.value) : NULL;
}

static inline poheldu_answer poheldu_free(const poheldu_heap *h, const void *p)
{
    const poheldu_answer nothing = {POHELDU_SERVED, 0};
    return p == NULL ? nothing : poheldu_free_at(h, poheldu_offset(h, p));
}

static inline size_t poheldu_remaining(const poheldu_heap *h, const void *p)
{
    return poheldu_remaining_at(h, poheldu_offset(h, p)).value;
}

static inline poheldu_view poheldu_look(const poheldu_heap *h, const void *p, size_t count,
                                        const void *page, size_t page_len)
{
    return poheldu_look_at(h, poheldu_offset(h, p), count, page, page_len);
}

static inline poheldu_answer poheldu_copy_bytes(const poheldu_heap *h, void *to, const void *from,
                                                size_t len)
{
    return poheldu_copy_bytes_at(h, poheldu_offset(h, to), from, len);
}

/*
 * How many bytes of a text a copy is lent: through its first zero, at most so many, and not past
 * the heap that it lies in. memchr reads one byte after another and none after that zero (C11,
 * 7.24.5.1), so that the text may be shorter than most.
 */
static inline size_t poheldu_text_(const poheldu_heap *h, const char *text, size_t most)
{
    const size_t offset = poheldu_offset(h, text);
    if (offset < h->heap_len && most > h->heap_len - offset)
        most = h->heap_len - offset;
    const char *const zero = most > 0 ? (const char *)memchr(text, '\0', most) : NULL;
    return zero != NULL ? (size_t)(zero - text) + 1 : most;
}

/*
 * No copy writes more than the longest object. Whether a string of that length is clipped, the byte
 * after it says; no more are read.
 */
static inline poheldu_answer poheldu_copy_string(const poheldu_heap *h, void *to, const char *from)
{
    return poheldu_copy_string_at(h, poheldu_offset(h, to), from,
                                  poheldu_text_(h, from, POHELDU_LARGEST_OBJECT + 1));
}

static inline poheldu_answer poheldu_copy_padded(const poheldu_heap *h, void *to, const char *from,
                                                 size_t count)
{
    const size_t most = count < POHELDU_LARGEST_OBJECT ? count : POHELDU_LARGEST_OBJECT;
    return poheldu_copy_padded_at(h, poheldu_offset(h, to), from, poheldu_text_(h, from, most),
                                  count);
}

#ifdef __cplusplus
}
#endif

#endif
