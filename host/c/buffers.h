/* Buffers that are lent to a call. The tests are the same wherever these come from:
 *
 *   PLAIN    memory with guard bytes on both sides
 *   BEHIND   pages of its own; behind its last byte is one that may be neither read nor written
 *   BEFORE   the same, and it stands before its first byte
 *   HEAP     a block of just its length, for valgrind
 *
 * In pages of its own, the bytes on its other side are guard bytes, and an input may not be written. */
#ifndef BUFFERS_H
#define BUFFERS_H

#include <stddef.h>
#include <stdint.h>

enum { LENT = 0xa5, GUARD = 64 };
enum place { PLAIN_MEMORY, FENCE_BEHIND, FENCE_BEFORE, HEAP };

extern enum place place;

/* A buffer, and the memory that it stands in, guard bytes included. */
struct buffer {
    uint8_t *bytes;
    size_t length;
    uint8_t *memory;
    size_t size;
    int is_kept;
};

/* All of it holds that value, and guard bytes LENT. */
struct buffer lend(size_t length, uint8_t value);

/* The same once more in the place of the one before: all of an output holds LENT. Its bytes. */
uint8_t *lend_again(struct buffer b);

/* An input that holds what `fill` puts there. One that is longer than `most` is kept, and not to be written: a call
 * refuses it before it reads it. */
struct buffer lend_input(size_t length, size_t most);

/* Whether the kept input holds what it held at first. */
int kept_is_whole(void);

/* An input may not be written from here on. */
void shut(struct buffer b);

void give_back(struct buffer b);

/* Whether all but the first `length` bytes of an output buffer, guard bytes included, are as they were. */
int untouched(struct buffer b, size_t length);

/* The bytes that inputs are made of. */
void fill(struct buffer b);
int holds_fill(struct buffer b);

/* What is lent for a buffer: NULL for an empty one. */
uint8_t *lent(struct buffer b);

#endif
