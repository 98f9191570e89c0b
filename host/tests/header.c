/* Calls each function of lunkaseyo.h, accepted and refused; prints what is wrong and ends with status 1 if anything is. */
#include "lunkaseyo.h"

#include <stdio.h>
#include <string.h>

#define MB ((uint64_t)1024 * 1024)

static int faults = 0;

static void expect(int holds, const char *what, int line)
{
    if (!holds) {
        printf("header.c:%d: %s\n", line, what);
        faults = 1;
    }
}

#define EXPECT(holds) expect(holds, #holds, __LINE__)

static int same(const uint64_t sizes[4], uint64_t a, uint64_t b, uint64_t c, uint64_t d)
{
    return sizes[0] == a && sizes[1] == b && sizes[2] == c && sizes[3] == d;
}

/* Writes over out-values, so that a call which leaves them alone is seen. */
static void spoil(uint64_t *words, size_t count)
{
    memset(words, 0xA5, count * sizeof *words);
}

static void text(void)
{
    uint8_t buf[13] = "############";
    uint64_t length;

    spoil(&length, 1);
    EXPECT(lunkaseyo_fmt_bytes(1152, buf, 12, &length) == 0);
    EXPECT(length == 7 && memcmp(buf, "1.12 KB#####", 12) == 0);

    spoil(&length, 1);
    EXPECT(lunkaseyo_fmt_bytes(1048575, buf, 9, &length) == 16);
    EXPECT(length == 0 && memcmp(buf, "1.12 KB#####", 12) == 0);

    spoil(&length, 1);
    EXPECT(lunkaseyo_fmt_bytes((uint64_t)1 << 50, buf, 0, &length) == 15);
    EXPECT(length == 0 && memcmp(buf, "1.12 KB#####", 12) == 0);
}

static void accepted_sizes(void)
{
    uint64_t sizes[4], size;

    spoil(sizes, 4);
    lunkaseyo_sizes_new(5 * MB, 257 * MB, sizes);
    EXPECT(same(sizes, 8 * MB, 8 * MB, 256 * MB, 256 * MB));

    spoil(sizes, 4);
    lunkaseyo_sizes_default(sizes);
    EXPECT(same(sizes, 256 * MB, 256 * MB, 64 * MB, 64 * MB));

    spoil(sizes, 4);
    EXPECT(lunkaseyo_sizes_with_max_device_memblock_size(8 * MB, 8 * MB, 4 * MB, 4 * MB, 255 * MB, sizes) == 0);
    EXPECT(same(sizes, 8 * MB, 256 * MB, 4 * MB, 4 * MB));

    spoil(sizes, 4);
    EXPECT(lunkaseyo_sizes_with_max_host_memblock_size(8 * MB, 8 * MB, 4 * MB, 4 * MB, 13 * MB, sizes) == 0);
    EXPECT(same(sizes, 8 * MB, 8 * MB, 4 * MB, 16 * MB));

    spoil(&size, 1);
    EXPECT(lunkaseyo_sizes_get_memblock_size(8 * MB, 256 * MB, 4 * MB, 16 * MB, 0, 5, &size) == 0 && size == 256 * MB);
    spoil(&size, 1);
    EXPECT(lunkaseyo_sizes_get_memblock_size(8 * MB, 256 * MB, 4 * MB, 16 * MB, 1, 1, &size) == 0 && size == 8 * MB);
    /* any number but 0 means the host */
    spoil(&size, 1);
    EXPECT(lunkaseyo_sizes_get_memblock_size(8 * MB, 256 * MB, 4 * MB, 16 * MB, UINT64_MAX - 1, 0, &size) == 0);
    EXPECT(size == 4 * MB);
}

static void refused_sizes(void)
{
    uint64_t sizes[4], size;

    spoil(sizes, 4);
    EXPECT(lunkaseyo_sizes_with_max_device_memblock_size(8 * MB, 4 * MB, 4 * MB, 4 * MB, 8 * MB, sizes) == 14);
    EXPECT(same(sizes, 0, 0, 0, 0));

    spoil(sizes, 4);
    EXPECT(lunkaseyo_sizes_with_max_host_memblock_size(8 * MB, 8 * MB, 4 * MB, 260 * MB, 8 * MB, sizes) == 14);
    EXPECT(same(sizes, 0, 0, 0, 0));

    spoil(&size, 1);
    EXPECT(lunkaseyo_sizes_get_memblock_size(8 * MB, 8 * MB, 0, 4 * MB, 0, 0, &size) == 14 && size == 0);
}

static void accepted_blocks(void)
{
    /* one slot; then linear 100 in a block of 4096 with two */
    const uint64_t fresh[11] = {4096, 0, 2, 1, 1, 4096, 0, 0, 0, 0, 0};
    const uint64_t placed[18] = {4096, 100, 3, 2, 1, 3996, 100, 0, 0, 0, 2, 2, 100, 0, 1, 7, 1, 0};
    uint64_t words[11], allocated, is_empty;

    spoil(words, 11);
    EXPECT(lunkaseyo_block_new(words, 11, 4096) == 0);
    EXPECT(memcmp(words, fresh, sizeof fresh) == 0);

    spoil(&allocated, 1);
    EXPECT(lunkaseyo_block_allocated(fresh, 11, &allocated) == 0 && allocated == 0);
    spoil(&is_empty, 1);
    EXPECT(lunkaseyo_block_is_empty(fresh, 11, &is_empty) == 0 && is_empty == 1);

    spoil(&allocated, 1);
    EXPECT(lunkaseyo_block_allocated(placed, 18, &allocated) == 0 && allocated == 100);
    spoil(&is_empty, 1);
    EXPECT(lunkaseyo_block_is_empty(placed, 18, &is_empty) == 0 && is_empty == 0);
}

static void calls_of_a_block(void)
{
    /* two slots: linear 100, renamed; then the rest as non-linear, on a page of its own */
    const uint64_t placed[18] = {4096, 100, 3, 2, 1, 3996, 100, 0, 0, 0, 2, 2, 100, 0, 1, 8, 1, 0};
    const uint64_t filled[18] = {4096, 4096, 3, 2, 1, 3996, 100, 2, 9, 0, 2, 2, 100, 0, 1, 8, 1, 0};
    const uint64_t merged[18] = {4096, 0, 3, 2, 0, 0, 0, 0, 0, 0, 0, 2, 4096, 0, 0, 0, 0, 0};
    uint64_t words[18], offset, id;

    EXPECT(lunkaseyo_block_new(words, 18, 4096) == 0);
    spoil(&offset, 1);
    spoil(&id, 1);
    EXPECT(lunkaseyo_block_allocate(words, 18, 100, 1, 1, 1024, 7, &offset, &id) == 0 && offset == 0 && id == 2);
    EXPECT(lunkaseyo_block_rename_allocation(words, 18, 2, 8) == 0);
    EXPECT(memcmp(words, placed, sizeof placed) == 0);

    spoil(&offset, 1);
    spoil(&id, 1);
    EXPECT(lunkaseyo_block_allocate(words, 18, 3072, 64, 2, 1024, 9, &offset, &id) == 0 && offset == 1024 && id == 1);
    EXPECT(memcmp(words, filled, sizeof filled) == 0);

    EXPECT(lunkaseyo_block_free(words, 18, 2) == 0);
    EXPECT(lunkaseyo_block_free(words, 18, 1) == 0);
    EXPECT(memcmp(words, merged, sizeof merged) == 0);
}

/* The number of a request that is refused, with zeros in its out-values and its words as they were; 0 if it is not so. */
static uint64_t refused(const uint64_t *table, size_t words_len, uint64_t size, uint64_t alignment, uint64_t kind,
                        uint64_t granularity)
{
    uint64_t words[18], offset, id, number;

    memcpy(words, table, sizeof words);
    spoil(&offset, 1);
    spoil(&id, 1);
    number = lunkaseyo_block_allocate(words, words_len, size, alignment, kind, granularity, 7, &offset, &id);
    return offset == 0 && id == 0 && memcmp(words, table, sizeof words) == 0 ? number : 0;
}

static void refused_requests(void)
{
    uint64_t fresh[18], last_id[18], one_slot[18], unsound[18];

    EXPECT(lunkaseyo_block_new(fresh, 18, 4096) == 0);
    memcpy(last_id, fresh, sizeof last_id);
    last_id[2] = UINT64_MAX;
    spoil(one_slot, 18);
    EXPECT(lunkaseyo_block_new(one_slot, 11, 4096) == 0);
    spoil(unsound, 18);

    /* each with every fault that comes after it */
    EXPECT(refused(unsound, 17, 0, 3, 257, 3) == 1);
    EXPECT(refused(unsound, 18, 0, 3, 257, 3) == 2);
    EXPECT(refused(fresh, 18, 0, 3, 257, 3) == 3);
    EXPECT(refused(fresh, 18, 4097, 3, 257, 3) == 4);
    EXPECT(refused(fresh, 18, 4097, 1, 257, 0) == 5);
    EXPECT(refused(fresh, 18, 4097, 1, 257, 1) == 6);
    EXPECT(refused(fresh, 18, 4097, 1, 1, 1) == 7);
    EXPECT(refused(last_id, 18, 1, 1, 1, 1) == 8);
    EXPECT(refused(one_slot, 11, 1, 1, 1, 1) == 9);
}

static void refused_ids(void)
{
    /* id 1 is a free chunk's */
    const uint64_t fresh[11] = {4096, 0, 2, 1, 1, 4096, 0, 0, 0, 0, 0};
    uint64_t words[11], spoilt[11], id;

    memcpy(words, fresh, sizeof words);
    for (id = 0; id <= 2; id++) {
        EXPECT(lunkaseyo_block_free(words, 11, id) == 10);
        EXPECT(lunkaseyo_block_rename_allocation(words, 11, id, 7) == 10);
    }
    EXPECT(memcmp(words, fresh, sizeof fresh) == 0);

    spoil(words, 11);
    spoil(spoilt, 11);
    EXPECT(lunkaseyo_block_free(words, 10, 0) == 1);
    EXPECT(lunkaseyo_block_free(words, 11, 0) == 2);
    EXPECT(lunkaseyo_block_rename_allocation(words, 10, 0, 7) == 1);
    EXPECT(lunkaseyo_block_rename_allocation(words, 11, 0, 7) == 2);
    EXPECT(memcmp(words, spoilt, sizeof spoilt) == 0);
}

static void refused_blocks(void)
{
    uint64_t words[11], spoilt[11], allocated, is_empty;

    spoil(words, 11);
    spoil(spoilt, 11);
    EXPECT(lunkaseyo_block_new(words, 0, 0) == 1);
    EXPECT(lunkaseyo_block_new(words, 10, 0) == 1);
    EXPECT(lunkaseyo_block_new(words, 11, 0) == 13);
    EXPECT(lunkaseyo_block_new(words, 11, ((uint64_t)1 << 40) + 1) == 13);
    EXPECT(memcmp(words, spoilt, sizeof spoilt) == 0);

    spoil(&allocated, 1);
    EXPECT(lunkaseyo_block_allocated(words, 4, &allocated) == 1 && allocated == 0);
    spoil(&allocated, 1);
    EXPECT(lunkaseyo_block_allocated(words, 11, &allocated) == 2 && allocated == 0);
    spoil(&is_empty, 1);
    EXPECT(lunkaseyo_block_is_empty(words, 4, &is_empty) == 1 && is_empty == 0);
    spoil(&is_empty, 1);
    EXPECT(lunkaseyo_block_is_empty(words, 11, &is_empty) == 2 && is_empty == 0);
}

/* Whether three words are these. */
static int are(const uint64_t words[3], uint64_t a, uint64_t b, uint64_t c)
{
    return words[0] == a && words[1] == b && words[2] == c;
}

/* Whether the record is sound, with these words, and its questions answer by them. */
static int is_dedicated(const uint64_t record[3], uint64_t size, uint64_t allocated, uint64_t label)
{
    uint64_t total, is_empty, report[3];

    spoil(&total, 1);
    spoil(&is_empty, 1);
    spoil(report, 3);
    return are(record, size, allocated, label) &&
           lunkaseyo_dedicated_allocated(record, &total) == 0 && total == allocated &&
           lunkaseyo_dedicated_is_empty(record, &is_empty) == 0 && is_empty == (allocated == 0) &&
           lunkaseyo_dedicated_report_allocations(record, report) == 0 && are(report, 0, size, label);
}

static void calls_of_a_dedicated_block(void)
{
    uint64_t record[3], offset, id;

    spoil(record, 3);
    EXPECT(lunkaseyo_dedicated_new(record, UINT64_MAX) == 0 && is_dedicated(record, UINT64_MAX, 0, 0));
    EXPECT(lunkaseyo_dedicated_rename_allocation(record, 1, 6) == 0 && is_dedicated(record, UINT64_MAX, 0, 6));

    spoil(&offset, 1);
    spoil(&id, 1);
    EXPECT(lunkaseyo_dedicated_allocate(record, UINT64_MAX, 64, 2, 1024, 7, &offset, &id) == 0);
    EXPECT(offset == 0 && id == 1 && is_dedicated(record, UINT64_MAX, UINT64_MAX, 7));
    EXPECT(lunkaseyo_dedicated_rename_allocation(record, 1, 8) == 0);
    EXPECT(is_dedicated(record, UINT64_MAX, UINT64_MAX, 8));

    /* the label stays, and a block that is empty can be given back again */
    EXPECT(lunkaseyo_dedicated_free(record, 1) == 0 && is_dedicated(record, UINT64_MAX, 0, 8));
    EXPECT(lunkaseyo_dedicated_free(record, 1) == 0 && is_dedicated(record, UINT64_MAX, 0, 8));
}

/* The number of a request for a dedicated block that is refused, as with `refused`. */
static uint64_t refused_dedicated(const uint64_t before[3], uint64_t size, uint64_t alignment, uint64_t kind,
                                  uint64_t granularity)
{
    uint64_t record[3], offset, id, number;

    memcpy(record, before, sizeof record);
    spoil(&offset, 1);
    spoil(&id, 1);
    number = lunkaseyo_dedicated_allocate(record, size, alignment, kind, granularity, 7, &offset, &id);
    return offset == 0 && id == 0 && memcmp(record, before, sizeof record) == 0 ? number : 0;
}

static void refused_dedicated_requests(void)
{
    const uint64_t unsound[3] = {4096, 5, 6}, occupied[3] = {4096, 4096, 6}, empty[3] = {4096, 0, 6};

    /* each with every fault that comes after it */
    EXPECT(refused_dedicated(unsound, 0, 3, 257, 3) == 2);
    EXPECT(refused_dedicated(occupied, 0, 3, 257, 3) == 3);
    EXPECT(refused_dedicated(occupied, 4095, 3, 257, 3) == 4);
    EXPECT(refused_dedicated(occupied, 4095, 1, 257, 0) == 5);
    EXPECT(refused_dedicated(occupied, 4095, 1, 257, 1) == 6);
    EXPECT(refused_dedicated(occupied, 4095, 1, 1, 1) == 11);
    EXPECT(refused_dedicated(empty, 4095, 1, 1, 1) == 12);
}

static void refused_dedicated_blocks(void)
{
    uint64_t record[3] = {4096, 5, 6}, allocated, is_empty, report[3];

    EXPECT(lunkaseyo_dedicated_new(record, 0) == 13);
    EXPECT(lunkaseyo_dedicated_free(record, 0) == 2);
    EXPECT(lunkaseyo_dedicated_rename_allocation(record, 0, 7) == 2);
    spoil(&allocated, 1);
    EXPECT(lunkaseyo_dedicated_allocated(record, &allocated) == 2 && allocated == 0);
    spoil(&is_empty, 1);
    EXPECT(lunkaseyo_dedicated_is_empty(record, &is_empty) == 2 && is_empty == 0);
    spoil(report, 3);
    EXPECT(lunkaseyo_dedicated_report_allocations(record, report) == 2 && are(report, 0, 0, 0));
    EXPECT(are(record, 4096, 5, 6));

    record[1] = 4096;
    EXPECT(lunkaseyo_dedicated_free(record, 0) == 18);
    EXPECT(lunkaseyo_dedicated_free(record, 2) == 18);
    EXPECT(lunkaseyo_dedicated_rename_allocation(record, 0, 7) == 18);
    EXPECT(lunkaseyo_dedicated_rename_allocation(record, 2, 7) == 18);
    EXPECT(are(record, 4096, 4096, 6));
}

/* Whether a step from this place answers this number and leak, and leaves this place and the words as they were. */
static int steps(const uint64_t table[18], size_t words_len, uint64_t place, uint64_t number, const uint64_t leak[5],
                 uint64_t after)
{
    uint64_t words[18], out[5];

    memcpy(words, table, sizeof words);
    spoil(out, 5);
    return lunkaseyo_leaks_step(words, words_len, &place, out) == number && memcmp(out, leak, sizeof out) == 0 &&
           place == after && memcmp(words, table, sizeof words) == 0;
}

static void leaks(void)
{
    /* linear 100, then the rest as non-linear, in the slots 2 and 1 */
    const uint64_t filled[18] = {4096, 4096, 3, 2, 1, 3996, 100, 2, 9, 0, 2, 2, 100, 0, 1, 8, 1, 0};
    const uint64_t first[5] = {2, 0, 100, 1, 8}, second[5] = {1, 100, 3996, 2, 9}, none[5] = {0, 0, 0, 0, 0};
    uint64_t spoilt[18], place;

    spoil(&place, 1);
    EXPECT(lunkaseyo_leaks_start(filled, 18, &place) == 0 && place == 0);
    EXPECT(steps(filled, 18, 0, 0, first, 100));
    EXPECT(steps(filled, 18, 1, 0, second, 4096));
    EXPECT(steps(filled, 18, 100, 0, second, 4096));
    EXPECT(steps(filled, 18, 4096, 0, none, 4096));
    EXPECT(steps(filled, 18, UINT64_MAX, 0, none, UINT64_MAX));

    spoil(spoilt, 18);
    spoil(&place, 1);
    EXPECT(lunkaseyo_leaks_start(spoilt, 17, &place) == 1 && place == 0);
    spoil(&place, 1);
    EXPECT(lunkaseyo_leaks_start(spoilt, 18, &place) == 2 && place == 0);
    EXPECT(steps(spoilt, 17, 7, 1, none, 7));
    EXPECT(steps(spoilt, 18, 7, 2, none, 7));
}

/* NULL with length 0 is the empty slice, and each call is refused by the first number that it has for a slice. */
static void empty_texts(void)
{
    uint64_t length;

    spoil(&length, 1);
    EXPECT(lunkaseyo_fmt_bytes(0, NULL, 0, &length) == 16 && length == 0);
    spoil(&length, 1);
    EXPECT(lunkaseyo_fmt_bytes((uint64_t)1 << 50, NULL, 0, &length) == 15 && length == 0);
}

static void empty_tables(void)
{
    const uint64_t none[5] = {0, 0, 0, 0, 0};
    uint64_t offset, id, allocated, is_empty, place, leak[5];

    EXPECT(lunkaseyo_block_new(NULL, 0, 4096) == 1);
    spoil(&offset, 1);
    spoil(&id, 1);
    EXPECT(lunkaseyo_block_allocate(NULL, 0, 100, 1, 1, 1024, 7, &offset, &id) == 1 && offset == 0 && id == 0);
    EXPECT(lunkaseyo_block_free(NULL, 0, 1) == 1);
    EXPECT(lunkaseyo_block_rename_allocation(NULL, 0, 1, 7) == 1);
    spoil(&allocated, 1);
    EXPECT(lunkaseyo_block_allocated(NULL, 0, &allocated) == 1 && allocated == 0);
    spoil(&is_empty, 1);
    EXPECT(lunkaseyo_block_is_empty(NULL, 0, &is_empty) == 1 && is_empty == 0);
    spoil(&place, 1);
    EXPECT(lunkaseyo_leaks_start(NULL, 0, &place) == 1 && place == 0);
    spoil(leak, 5);
    place = 7;
    EXPECT(lunkaseyo_leaks_step(NULL, 0, &place, leak) == 1 && memcmp(leak, none, sizeof none) == 0 && place == 7);
}

/* A pointer to a page that no process may touch, as good with length 0 as NULL. */
static void empty_slices_elsewhere(void)
{
    uint64_t *words = (uint64_t *)UINTPTR_MAX, allocated, length;

    EXPECT(lunkaseyo_block_new(words, 0, 4096) == 1);
    spoil(&allocated, 1);
    EXPECT(lunkaseyo_block_allocated(words, 0, &allocated) == 1 && allocated == 0);
    spoil(&length, 1);
    EXPECT(lunkaseyo_fmt_bytes(0, (uint8_t *)words, 0, &length) == 16 && length == 0);
}

int main(void)
{
    text();
    accepted_sizes();
    refused_sizes();
    accepted_blocks();
    refused_blocks();
    calls_of_a_block();
    refused_requests();
    refused_ids();
    leaks();
    calls_of_a_dedicated_block();
    refused_dedicated_requests();
    refused_dedicated_blocks();
    empty_texts();
    empty_tables();
    empty_slices_elsewhere();
    return faults;
}
