#define _DEFAULT_SOURCE

#include "buffers.h"

#include <stdio.h>
#include <stdlib.h>
#include <string.h>
#include <sys/mman.h>
#include <unistd.h>

/* As long as an input that is kept: a little more than any limit. */
enum { LONGEST_INPUT = 16777216 + 64 };

enum place place = FENCE_BEHIND;

static size_t page(void)
{
    static size_t size;
    if (size == 0) {
        size = (size_t)sysconf(_SC_PAGESIZE);
    }
    return size;
}

static int is_fenced(void)
{
    return place == FENCE_BEHIND || place == FENCE_BEFORE;
}

static void no_memory(void)
{
    perror("no memory for a buffer");
    exit(2);
}

/* Single pages that were given back, each between its fences still, which are lent again. */
enum { MOST_POOLED = 32 };
static uint8_t *pool[MOST_POOLED];
static size_t pooled;

static uint8_t *fenced_pages(size_t size)
{
    uint8_t *pages;
    if (size == page() && pooled > 0) {
        return pool[--pooled];
    }
    pages = mmap(NULL, size + 2 * page(), PROT_NONE, MAP_PRIVATE | MAP_ANONYMOUS, -1, 0);
    if (pages == MAP_FAILED || mprotect(pages + page(), size, PROT_READ | PROT_WRITE) != 0) {
        no_memory();
    }
    return pages + page();
}

struct buffer lend(size_t length, uint8_t value)
{
    struct buffer b = {.length = length};
    if (is_fenced()) {
        b.size = (length + GUARD + page() - 1) / page() * page();
        b.memory = fenced_pages(b.size);
        b.bytes = b.memory + (place == FENCE_BEHIND ? b.size - length : 0);
    } else {
        b.size = place == HEAP ? length : GUARD + length + GUARD;
        b.memory = malloc(b.size);
        if (b.memory == NULL && b.size != 0) {
            no_memory();
        }
        b.bytes = b.memory + (place == HEAP ? 0 : GUARD);
    }
    memset(b.memory, LENT, b.size);
    memset(b.bytes, value, length);
    return b;
}

uint8_t *lend_again(struct buffer b)
{
    memset(b.memory, LENT, b.size);
    return b.bytes;
}

static struct buffer kept[HEAP + 1];

int kept_is_whole(void)
{
    return kept[place].bytes == NULL || untouched(kept[place], 0);
}

struct buffer lend_input(size_t length, size_t most)
{
    struct buffer b;
    if (length <= most || length > LONGEST_INPUT) {
        b = lend(length, 0);
        fill(b);
        return b;
    }
    if (kept[place].bytes == NULL) {
        kept[place] = lend(LONGEST_INPUT, LENT);
        shut(kept[place]);
    }
    b = kept[place];
    b.is_kept = 1;
    b.bytes += place == FENCE_BEFORE ? 0 : b.length - length;
    b.length = length;
    return b;
}

void shut(struct buffer b)
{
    if (is_fenced() && !b.is_kept && mprotect(b.memory, b.size, PROT_READ) != 0) {
        perror("a buffer");
        exit(2);
    }
}

void give_back(struct buffer b)
{
    if (b.is_kept) {
        return;
    }
    if (is_fenced() && b.size == page() && pooled < MOST_POOLED) {
        if (mprotect(b.memory, b.size, PROT_READ | PROT_WRITE) != 0) {
            no_memory();
        }
        pool[pooled++] = b.memory;
    } else if (is_fenced()) {
        munmap(b.memory - page(), b.size + 2 * page());
    } else {
        free(b.memory);
    }
}

int untouched(struct buffer b, size_t length)
{
    for (const uint8_t *p = b.memory; p < b.memory + b.size; p++) {
        if ((p < b.bytes || p >= b.bytes + length) && *p != LENT) {
            return 0;
        }
    }
    return 1;
}

static uint8_t byte_of(size_t i)
{
    return (uint8_t)(i * 167 + i / 256 * 13 + 29);
}

void fill(struct buffer b)
{
    for (size_t i = 0; i < b.length; i++) {
        b.bytes[i] = byte_of(i);
    }
}

int holds_fill(struct buffer b)
{
    for (size_t i = 0; i < b.length && !b.is_kept; i++) {
        if (b.bytes[i] != byte_of(i)) {
            return 0;
        }
    }
    return 1;
}

uint8_t *lent(struct buffer b)
{
    return b.length ? b.bytes : NULL;
}
