/* The five calls, save and load, and the page, of the library that
 * `scripts/library` writes to target/staticlib/librinwolfedd.a, for Linux on
 * x86-64. A slice is a pointer and a length. NULL is not allowed, not even with
 * length 0: a slice of length 0 may have any other pointer. The slices of one
 * call must not overlap. No pointer is kept. Lengths and layout: docs/MEMORY.md.
 *
 * The commands that turns send hide which block is asked for only if the cache
 * has a place for every block (E = N). The bytes of a write are a block's, or
 * zeros, and are not sealed: whoever may see them must see them sealed, every
 * one and each time anew. */
#ifndef RINWOLFEDD_H
#define RINWOLFEDD_H

#include <stddef.h>
#include <stdint.h>

#ifdef __cplusplus
extern "C" {
#endif

/* The bytes of a state, and the kinds of requests and commands. */
enum { RINWOLFEDD_STATE = 76, RINWOLFEDD_READ = 1, RINWOLFEDD_WRITE = 2 };

/* The bytes of a line of a page, its newline among them, and of the longest
 * page: of 64 partitions. */
enum { RINWOLFEDD_LINE = 29, RINWOLFEDD_PAGE = 1885 };

/* The bytes of a block of a saved form, of which the last four are its sum. */
enum { RINWOLFEDD_BLOCK = 512 };

/* The number of an answer. A refused call takes no word and changes no lent
 * byte, but a refused open or load leaves zeros in the state: it is closed. */
enum {
    RINWOLFEDD_ACCEPTED = 0,
    RINWOLFEDD_SHAPE_OUT_OF_BOUNDS = 1, /* open */
    RINWOLFEDD_NOT_READY = 2,           /* memory or a form's buffer too short, or
                                           a number of the state or the kind out
                                           of its range */
    RINWOLFEDD_TOO_FEW_WORDS = 3,       /* of the tape */
    RINWOLFEDD_REQUEST_IN_HAND = 4,     /* request */
    RINWOLFEDD_NO_SUCH_BLOCK = 5,       /* request */
    RINWOLFEDD_CONTENTS_LENGTH = 6,     /* request: B for a write, 0 for a read */
    RINWOLFEDD_QUEUE_FULL = 7,          /* request: more than 62 jobs queued */
    RINWOLFEDD_CACHE_FULL = 8,          /* request: never with E = N */
    RINWOLFEDD_WINDOW_FULL = 9,         /* turn: W commands are outstanding */
    RINWOLFEDD_NOTHING_TO_SEND = 10,    /* turn */
    RINWOLFEDD_NOT_OUTSTANDING = 11,    /* completion: no such command */
    RINWOLFEDD_COMPLETION_LENGTH = 12,  /* completion: B for a read, 0 for a write */
    RINWOLFEDD_NO_REQUEST = 13,         /* collect */
    RINWOLFEDD_NOT_FINISHED = 14,       /* collect: jobs hold the request, or reads
                                           have not completed */
    RINWOLFEDD_BUFFER_LENGTH = 15,      /* turn that writes, collect: exactly B;
                                           page: as long as the page, or longer */
    RINWOLFEDD_NOT_AT_REST = 16,        /* save: a request in hand, a command
                                           outstanding or a job begun */
    RINWOLFEDD_FORM_DAMAGED = 17,       /* load: no positive multiple of 512, or a
                                           wrong sum */
    RINWOLFEDD_NOT_A_FORM = 18          /* load */
};

/* Where a collect found the block: RINWOLFEDD_LEVEL + l is level l. */
enum { RINWOLFEDD_NOWHERE = 0, RINWOLFEDD_CACHE = 1, RINWOLFEDD_LEVEL = 2 };

/* Each call answers one number of 64 bits, from the lowest on: the number (5),
 * the command that a turn sent, of kind (2), partition (6), level (4) and slot
 * (11), where a collect found the block (4), and the words taken from the tape
 * (32). What does not apply is 0. */
static inline unsigned rinwolfedd_number(uint64_t a) { return a & 31; }
static inline unsigned rinwolfedd_kind(uint64_t a) { return a >> 5 & 3; }
static inline unsigned rinwolfedd_partition(uint64_t a) { return a >> 7 & 63; }
static inline unsigned rinwolfedd_level(uint64_t a) { return a >> 13 & 15; }
static inline unsigned rinwolfedd_slot(uint64_t a) { return a >> 17 & 2047; }
static inline size_t rinwolfedd_taken(uint64_t a) { return a >> 32; }

/* Where the block was found when its request ceased to be held by jobs of its
 * partition, or was accepted if none held it; RINWOLFEDD_NOWHERE of a refused
 * collect and of every other call. It is for the owner of the store, not for its
 * host: it tells what the commands hide, such as whether the block was asked for
 * not long ago. */
static inline unsigned rinwolfedd_found(uint64_t a) { return a >> 28 & 15; }

/* A save and a page take no word, and have their length in bytes in that place. */
static inline size_t rinwolfedd_length(uint64_t a) { return a >> 32; }

/* The bytes of memory that a shape within bounds needs. */
static inline size_t rinwolfedd_needed(size_t n, size_t p, size_t l, size_t b)
{
    return 384 + 6 * n + 6 * p * ((size_t)2 << l) + (n + 1) * b;
}

/* The bytes of the longest saved form of a shape within bounds, were E = N: those
 * that a save's buffer must have, however short the form is. */
static inline size_t rinwolfedd_longest_form(size_t n, size_t p, size_t l, size_t b)
{
    size_t payload = 143 + 2 * p + (7 + b) * n + 2 * p * (((size_t)2 << l) - 2);
    return (payload + RINWOLFEDD_BLOCK - 5) / (RINWOLFEDD_BLOCK - 4) * RINWOLFEDD_BLOCK;
}

/* The bytes of the page of a store with so many partitions. */
static inline size_t rinwolfedd_page_bytes(size_t p)
{
    return RINWOLFEDD_LINE * (p + 1);
}

/* Opens a store of N blocks, P partitions, L levels, B bytes a block, E places
 * in the eviction cache, W commands outstanding at most. The tape is random
 * words of two bytes, low byte first; N of them are taken. No word that was taken
 * may be lent again. A call looks at no more than 2^32 - 1 words. Only E = N
 * hides the block. */
uint64_t rinwolfedd_open(uint8_t *state, size_t state_len,
                         uint8_t *memory, size_t memory_len,
                         size_t n, size_t p, size_t l, size_t b, size_t e, size_t w,
                         const uint8_t *tape, size_t tape_len);

/* Takes a request in hand; contents of exactly B bytes for a write, of 0 for a
 * read. Two words are taken. */
uint64_t rinwolfedd_request(uint8_t *state, size_t state_len,
                            uint8_t *memory, size_t memory_len,
                            size_t kind, size_t block,
                            const uint8_t *contents, size_t contents_len,
                            const uint8_t *tape, size_t tape_len);

/* Sends one command; a write's bytes go into the buffer, which has exactly B. A
 * turn that sends the first write of jobs draws 2^k - 1 numbers for each level of
 * 2^k slots that they write, at most 375 together; others take no word. A draw
 * below m passes over words at or above the largest multiple of m that is at most
 * 65536; they count as taken, so lend 64 to spare. A turn that answers
 * RINWOLFEDD_TOO_FEW_WORDS takes none; if the store is to hide, none of the words
 * lent to it may be lent again. */
uint64_t rinwolfedd_turn(uint8_t *state, size_t state_len,
                         uint8_t *memory, size_t memory_len,
                         const uint8_t *tape, size_t tape_len,
                         uint8_t *buffer, size_t buffer_len);

/* Says that a command has completed; B bytes for a read, 0 for a write. Its
 * answer is to be looked at, too. */
uint64_t rinwolfedd_completion(uint8_t *state, size_t state_len,
                               uint8_t *memory, size_t memory_len,
                               size_t kind, size_t partition, size_t level, size_t slot,
                               const uint8_t *bytes, size_t bytes_len);

/* Hands out the contents before the request, into a buffer of exactly B bytes,
 * and tells in the answer where the block was found. */
uint64_t rinwolfedd_collect(uint8_t *state, size_t state_len,
                            uint8_t *memory, size_t memory_len,
                            uint8_t *buffer, size_t buffer_len);

/* Writes the saved form of the client to the start of the buffer, whose other bytes
 * stay: its length is in the answer, a multiple of RINWOLFEDD_BLOCK. It only reads
 * state and memory. The form is for the owner of the store, not for its host: it has
 * where each block is, and the contents of those that wait, which are not sealed.
 * It is good only with the slots as they are now: with others a loaded client would
 * hand out old contents and not know it. */
uint64_t rinwolfedd_save(const uint8_t *state, size_t state_len,
                         const uint8_t *memory, size_t memory_len,
                         uint8_t *buffer, size_t buffer_len);

/* Brings the client of a saved form back, whatever state and memory held. The
 * numbers are asked in the order RINWOLFEDD_FORM_DAMAGED, RINWOLFEDD_NOT_A_FORM,
 * RINWOLFEDD_NOT_READY for memory too short for the form's shape. A form that no
 * save made may load; a later turn may then answer RINWOLFEDD_NOT_READY. */
uint64_t rinwolfedd_load(uint8_t *state, size_t state_len,
                         uint8_t *memory, size_t memory_len,
                         const uint8_t *form, size_t form_len);

/* Writes the page of the store to the start of the buffer, whose other bytes
 * stay: its length is in the answer, and no '\0' follows it. A line for each
 * partition has its number in 4 columns, then counter, stored blocks, waiting
 * blocks and queued jobs in 6 each; a last one has "all ", then the blocks
 * nowhere, stored and waiting in 6 each, and 6 blanks. It only reads state and
 * memory, and may be asked for between any two calls. It is for the owner of
 * the store, not for its host: it tells what the commands hide, such as how
 * many blocks wait and where. */
uint64_t rinwolfedd_page(const uint8_t *state, size_t state_len,
                         const uint8_t *memory, size_t memory_len,
                         uint8_t *buffer, size_t buffer_len);

#ifdef __cplusplus
}
#endif

#endif
