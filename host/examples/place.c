/*
 * Places two buffers and an image in a block of graphics memory, gives one back, and prints where everything stands.
 * From the repository's folder, with the Rattle kit (`rt`) on the path:
 *
 *     mkdir -p target && host/archive target
 *     cc -I host host/examples/place.c target/liblunkaseyo.a -o target/place && target/place
 */
#include "lunkaseyo.h"

#include <inttypes.h>
#include <stdio.h>

enum { SLOTS = 8, WORDS = 4 + 7 * SLOTS, LINEAR = 1, NON_LINEAR = 2 };

#define BLOCK_SIZE ((uint64_t)4096)
/* no buffer and image on one page of so many bytes: Vulkan's bufferImageGranularity */
#define PAGE ((uint64_t)1024)

/* An amount of bytes as people read it. */
static void print_bytes(uint64_t amount)
{
    uint8_t text[10];
    uint64_t length;

    if (lunkaseyo_fmt_bytes(amount, text, sizeof text, &length) == 0)
        printf("%.*s", (int)length, (const char *)text);
}

/* Asks the block for memory, says what it answers, and gives the id; 0, which is no id, if it refuses. */
static uint64_t place(uint64_t words[WORDS], const char *what, uint64_t size, uint64_t alignment, uint64_t kind)
{
    uint64_t offset, id;
    uint64_t number = lunkaseyo_block_allocate(words, WORDS, size, alignment, kind, PAGE, 0, &offset, &id);

    if (number != 0)
        printf("%s: refusal %" PRIu64 "\n", what, number);
    else
        printf("%s: %" PRIu64 " bytes at %" PRIu64 ", id %" PRIu64 "\n", what, size, offset, id);
    return id;
}

/* Walks along what is handed out. */
static void print_live(const uint64_t words[WORDS])
{
    uint64_t at, leak[5];
    uint64_t number = lunkaseyo_leaks_start(words, WORDS, &at);

    while (number == 0 && (number = lunkaseyo_leaks_step(words, WORDS, &at, leak)) == 0 && leak[0] != 0) {
        printf("live: id %" PRIu64 ", from %" PRIu64 " on, ", leak[0], leak[1]);
        print_bytes(leak[2]);
        printf(" with padding\n");
    }
}

int main(void)
{
    uint64_t words[WORDS], allocated, first;

    if (lunkaseyo_block_new(words, WORDS, BLOCK_SIZE) != 0)
        return 1;
    first = place(words, "buffer", 100, 1, LINEAR);
    place(words, "image", 256, 64, NON_LINEAR);
    place(words, "buffer", 16, 16, LINEAR);
    place(words, "image", 4096, 1, NON_LINEAR);

    if (lunkaseyo_block_free(words, WORDS, first) != 0 || lunkaseyo_block_allocated(words, WORDS, &allocated) != 0)
        return 1;
    printf("id %" PRIu64 " given back, ", first);
    print_bytes(allocated);
    printf(" left\n");
    print_live(words);
    return 0;
}
