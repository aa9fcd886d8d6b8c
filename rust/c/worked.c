/* Document 01's worked session from C: one block of one byte, written, its jobs
 * done, and read again; after each collect, where the block was found; then the
 * page of the store as the session left it. In the end the client is saved and
 * another one loaded from its form, whose page is shown. From the repository's top:
 *
 *     cc -std=c99 rust/c/worked.c target/staticlib/librinwolfedd.a -o worked
 */
#include "rinwolfedd.h"
#include <stdio.h>
#include <stdlib.h>

static uint8_t state[RINWOLFEDD_STATE];
static uint8_t memory[416]; /* rinwolfedd_needed(1, 1, 1, 1) */
static uint8_t host[2];     /* the two slots of level 0 */

/* A real tape is random; these are the session's words 0 0 0 1 0 0 0. */
static const uint8_t words[] = {0, 0, 0, 0, 0, 0, 1, 0, 0, 0, 0, 0, 0, 0};
static const uint8_t *tape = words;

static size_t left(void) { return (size_t)(words + sizeof words - tape); }

/* The tape moves on by the words taken. */
static unsigned moved(uint64_t answer)
{
    tape += 2 * rinwolfedd_taken(answer);
    return rinwolfedd_number(answer);
}

static void request(size_t kind, const uint8_t *contents, size_t length)
{
    printf("%u\n", moved(rinwolfedd_request(state, sizeof state, memory, sizeof memory,
                                            kind, 0, contents, length, tape, left())));
}

/* Where the block was found is for the owner of the store, as its contents are. */
static void collect(void)
{
    uint8_t byte = 0;
    uint64_t answer = rinwolfedd_collect(state, sizeof state, memory, sizeof memory, &byte, 1);
    unsigned number = rinwolfedd_number(answer), found = rinwolfedd_found(answer);
    if (number != RINWOLFEDD_ACCEPTED) {
        printf("%u\n", number);
        return;
    }
    printf("0 %02x\n", byte);
    if (found < RINWOLFEDD_LEVEL)
        printf("found %s\n", found == RINWOLFEDD_CACHE ? "in the cache" : "nowhere");
    else
        printf("found in level %u\n", found - RINWOLFEDD_LEVEL);
}

/* A refused completion would mean that host and store no longer agree. */
static void complete(uint64_t sent, const uint8_t *byte)
{
    unsigned kind = rinwolfedd_kind(sent);
    unsigned number = rinwolfedd_number(
        rinwolfedd_completion(state, sizeof state, memory, sizeof memory, kind,
                              rinwolfedd_partition(sent), rinwolfedd_level(sent),
                              rinwolfedd_slot(sent), byte, kind == RINWOLFEDD_READ ? 1 : 0));
    if (number != RINWOLFEDD_ACCEPTED) {
        fprintf(stderr, "a completion is refused with %u\n", number);
        exit(EXIT_FAILURE);
    }
}

/* A turn, and the completion of its command by the host. */
static void turn(void)
{
    uint8_t byte = 0;
    uint64_t sent = rinwolfedd_turn(state, sizeof state, memory, sizeof memory,
                                    tape, left(), &byte, 1);
    unsigned kind = rinwolfedd_kind(sent), slot = rinwolfedd_slot(sent);
    if (moved(sent) != RINWOLFEDD_ACCEPTED) {
        printf("%u\n", rinwolfedd_number(sent));
        return;
    }
    if (kind == RINWOLFEDD_WRITE)
        host[slot] = byte;
    complete(sent, &host[slot]);
    printf("0 %c %u %u %u\n", kind == RINWOLFEDD_READ ? 'r' : 'w',
           rinwolfedd_partition(sent), rinwolfedd_level(sent), slot);
}

/* The page for the owner of the store; all RINWOLFEDD_PAGE bytes would do, too. */
static void page(void)
{
    static uint8_t text[RINWOLFEDD_PAGE];
    uint64_t shown = rinwolfedd_page(state, sizeof state, memory, sizeof memory,
                                     text, rinwolfedd_page_bytes(1));
    if (rinwolfedd_number(shown) != RINWOLFEDD_ACCEPTED)
        printf("%u\n", rinwolfedd_number(shown));
    else
        fwrite(text, 1, rinwolfedd_length(shown), stdout);
}

/* A form that was damaged is refused and leaves a closed state; the right one
 * brings the client back. A program would keep it in a file, and not where the
 * host is. */
static void save_and_load(void)
{
    static uint8_t form[RINWOLFEDD_BLOCK]; /* rinwolfedd_longest_form(1, 1, 1, 1) */
    uint64_t saved = rinwolfedd_save(state, sizeof state, memory, sizeof memory,
                                     form, sizeof form);
    size_t length = rinwolfedd_length(saved);
    printf("%u %lu\n", rinwolfedd_number(saved), (unsigned long)length);
    for (int i = 0; i < 2; i++) {
        form[20] ^= 1; /* there and back */
        printf("%u\n", rinwolfedd_number(rinwolfedd_load(state, sizeof state, memory,
                                                         sizeof memory, form, length)));
        page();
    }
}

int main(void)
{
    static const uint8_t seven = 7;
    printf("%u\n", moved(rinwolfedd_open(state, sizeof state, memory, sizeof memory,
                                         1, 1, 1, 1, 1, 1, tape, left())));
    request(RINWOLFEDD_WRITE, &seven, 1);
    collect();
    for (int i = 0; i < 6; i++)
        turn();
    request(RINWOLFEDD_READ, &seven, 0);
    turn();
    collect();
    page();
    save_and_load();
    return 0;
}
