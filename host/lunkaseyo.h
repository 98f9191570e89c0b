/*
 * lunkaseyo.h: the functions of liblunkaseyo.a.
 *
 * Answers. A function that returns a number returns 0 when it accepts the call and a refusal's number when it does not.
 * Where several faults meet, the one that is named first below is answered. A refused call sets its out-values to zeros
 * and leaves `buf`, `words`, `record` and the `place` of a step as they were. What an out-value held before the call
 * never matters.
 *
 * Slices. `buf` with `buf_len` and `words` with `words_len` are slices: `buf_len` bytes behind `buf`, `words_len` words
 * behind `words`. Where the length is 0 the pointer may be anything, NULL too: it is the empty slice, nothing is read or
 * written behind it, and the call is answered as for any slice that is too short: refusal 1 where it is of words, 16 where
 * it is for a text, after 15. Where the length is not 0 the pointer is one as below.
 *
 * Pointers. No other pointer may be NULL. Each points to memory of the caller, aligned as its type asks, that is there for
 * the whole call: one value behind `written`, `size`, `offset`, `id`, `allocated`, `is_empty` and `place`, three behind
 * `record` and `report`, four behind `sizes`, five behind `leak`. Two pointers of one call must not reach the same memory.
 * What is declared `const` is only read; all else has to be memory that can be written, where the call is refused too.
 * Nothing is kept after the call, and there is no state: any thread may call at any time.
 */
#ifndef LUNKASEYO_H
#define LUNKASEYO_H

#include <stddef.h>
#include <stdint.h>

#ifdef __cplusplus
extern "C" {
#endif

/*
 * An amount of memory as text: "1023.00 B", "1.50 KB", and so on to TB, at most 10 bytes, with no zero byte at its end.
 * The text goes to the front of the `buf_len` bytes at `buf`, the bytes after it are kept, and `written` gets its length.
 * Refusals: 15 the amount is 2^50 or more, 16 the buffer is too short.
 */
uint64_t lunkaseyo_fmt_bytes(uint64_t amount, uint8_t *buf, size_t buf_len, uint64_t *written);

/*
 * Block sizes are four numbers: the size of the first block and the size that blocks grow to, for the device and then for
 * the host, in the order min_device, max_device, min_host, max_host. A size that is given is clamped to 4 MiB..256 MiB and
 * rounded up to a multiple of 4 MiB, and a maximum is never below its minimum. Four numbers that do not keep to this are
 * refusal 14, whichever of them a call uses.
 */

/* Blocks of one size for the device and one for the host. Refuses nothing. */
void lunkaseyo_sizes_new(uint64_t device_memblock_size, uint64_t host_memblock_size, uint64_t sizes[4]);

/* 256 MiB for the device and 64 MiB for the host. Refuses nothing. */
void lunkaseyo_sizes_default(uint64_t sizes[4]);

/* The sizes with max_device set to `size`, or to min_device if that is larger. Refusal: 14. */
uint64_t lunkaseyo_sizes_with_max_device_memblock_size(uint64_t min_device, uint64_t max_device, uint64_t min_host,
                                                       uint64_t max_host, uint64_t size, uint64_t sizes[4]);

/* The sizes with max_host set to `size`, or to min_host if that is larger. Refusal: 14. */
uint64_t lunkaseyo_sizes_with_max_host_memblock_size(uint64_t min_device, uint64_t max_device, uint64_t min_host,
                                                     uint64_t max_host, uint64_t size, uint64_t sizes[4]);

/*
 * The size of the next block where `count` blocks are open, for the device if `is_host` is 0 and else for the host: the
 * minimum doubled for each open block, at most the maximum. Refusal: 14.
 */
uint64_t lunkaseyo_sizes_get_memblock_size(uint64_t min_device, uint64_t max_device, uint64_t min_host,
                                           uint64_t max_host, uint64_t is_host, uint64_t count, uint64_t *size);

/*
 * A free-list block is a table of its chunks in `words_len` words of the caller, 4 + 7s for s slots, s from 1 to 512; any
 * other count is refusal 1. First the head: block size, bytes allocated, next id, number (from 1) of the slot that starts
 * at 0. Then each slot: id, size, first byte, kind (0 free, 1 linear, 2 non-linear), label, next slot number, previous slot
 * number; 0 means none. An empty slot is seven zeros.
 *
 * The words are all that there is of a block; they may be copied, stored and lent again. So a call on a block looks at the
 * whole table, and one that is not sound is refusal 2. Sound means: block size 1 to 2^40; next id at least 2; ids distinct,
 * at least 1 and below next id; sizes at least 1; kinds 0 to 2; free chunks labelled 0; the walk along "next" visits every
 * used slot once and "previous" agrees; each chunk begins where the one before ends, the first at 0, the last ending at the
 * block size; no two neighbours free; bytes allocated the sum of live sizes, padding included.
 */

/*
 * A new block of `size` bytes, all free: every word is written, whatever it held. Refusals: 1, 13 the size is 0 or above
 * 2^40.
 */
uint64_t lunkaseyo_block_new(uint64_t *words, size_t words_len, uint64_t size);

/*
 * Hands out `size` bytes for a `kind` of use, 1 linear or 2 non-linear, at an `offset` that is a multiple of `alignment`.
 * They share no page of `granularity` bytes with a live neighbour of the other kind, and the padding of a neighbour counts as
 * the neighbour. Of the free chunks that hold the request it is the smallest, of several the one at the lowest address. A
 * larger chunk is split: its left part, padding before the offset included, becomes a chunk with a new `id` in the lowest
 * empty slot. One that is just filled keeps its own id and slot.
 * Refusals: 1, 2, 3 the size is 0, 4 the alignment is not a power of two, 5 the granularity is not, 6 the kind is neither 1
 * nor 2, 7 no free chunk holds the request, 8 a split is needed and the next id is 2^64 - 1, 9 a split is needed and no
 * slot is empty.
 */
uint64_t lunkaseyo_block_allocate(uint64_t *words, size_t words_len, uint64_t size, uint64_t alignment, uint64_t kind,
                                  uint64_t granularity, uint64_t label, uint64_t *offset, uint64_t *id);

/*
 * Gives back the live chunk with this id. Free neighbours are merged into one chunk, which keeps the id and the slot of
 * the leftmost. Refusals: 1, 2, 10 no live chunk has this id.
 */
uint64_t lunkaseyo_block_free(uint64_t *words, size_t words_len, uint64_t id);

/* Gives the live chunk with this id another label. Refusals: 1, 2, 10 no live chunk has this id. */
uint64_t lunkaseyo_block_rename_allocation(uint64_t *words, size_t words_len, uint64_t id, uint64_t label);

/* The bytes that are allocated, padding included. Refusals: 1, 2. */
uint64_t lunkaseyo_block_allocated(const uint64_t *words, size_t words_len, uint64_t *allocated);

/* 1 where nothing is allocated, 0 where something is. Refusals: 1, 2. */
uint64_t lunkaseyo_block_is_empty(const uint64_t *words, size_t words_len, uint64_t *is_empty);

/*
 * The leak walk hands out the live chunks of a block's table, one at a time by rising address. It keeps nothing but its
 * `place`, an address from which on nothing was handed out yet, in one word of the caller. Every number is a place, and
 * the table may change between two steps: a step goes by the words and the place that it is given. Words that are no
 * table, and a table that is not sound, are refused as above, at the start and at each step.
 */

/* The place at which a walk starts: 0. Refusals: 1, 2. */
uint64_t lunkaseyo_leaks_start(const uint64_t *words, size_t words_len, uint64_t *place);

/*
 * The first live chunk that begins at the place or later: `leak` gets its id, first byte, size with padding, kind and
 * label, in this order, and the place becomes its end. Where there is none the walk is over, which is no refusal: `leak`
 * gets five zeros, and no live chunk has id 0; the place stays. Refusals: 1, 2.
 */
uint64_t lunkaseyo_leaks_step(const uint64_t *words, size_t words_len, uint64_t *place, uint64_t leak[5]);

/*
 * A dedicated block holds one allocation, which takes all of it. It is a record in three words of the caller: block size,
 * bytes allocated, label. As with a table the words are all that there is of it, and a record that is not sound is
 * refusal 2. Sound means: block size at least 1; bytes allocated 0 or the block size.
 */

/* A new block of `size` bytes, free, with label 0: every word is written, whatever it held. Refusal: 13 the size is 0. */
uint64_t lunkaseyo_dedicated_new(uint64_t record[3], uint64_t size);

/*
 * Hands out the whole block, which gets the label: the `offset` is 0 and the `id` is 1. Alignment, granularity and kind
 * change nothing, but have to be well-formed.
 * Refusals: 2, 3 the size is 0, 4 the alignment is not a power of two, 5 the granularity is not, 6 the kind is neither 1
 * nor 2, 11 the block is occupied, 12 the size is not that of the block.
 */
uint64_t lunkaseyo_dedicated_allocate(uint64_t record[3], uint64_t size, uint64_t alignment, uint64_t kind,
                                      uint64_t granularity, uint64_t label, uint64_t *offset, uint64_t *id);

/* Gives the block back, which keeps its label. Accepted when it is empty already. Refusals: 2, 18 the id is not 1. */
uint64_t lunkaseyo_dedicated_free(uint64_t record[3], uint64_t id);

/* Gives the block another label, whether or not it is occupied. Refusals: 2, 18 the id is not 1. */
uint64_t lunkaseyo_dedicated_rename_allocation(uint64_t record[3], uint64_t id, uint64_t label);

/* The bytes that are allocated: none, or the block size. Refusal: 2. */
uint64_t lunkaseyo_dedicated_allocated(const uint64_t record[3], uint64_t *allocated);

/* 1 where nothing is allocated, 0 where something is. Refusal: 2. */
uint64_t lunkaseyo_dedicated_is_empty(const uint64_t record[3], uint64_t *is_empty);

/*
 * The one entry that a dedicated block always has, occupied or not: `report` gets first byte 0, the block size and the
 * label, in this order. Refusal: 2.
 */
uint64_t lunkaseyo_dedicated_report_allocations(const uint64_t record[3], uint64_t report[3]);

#ifdef __cplusplus
}
#endif

#endif
