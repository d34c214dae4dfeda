/* Bytes and numbers from a seed (splitmix64), for cases that can be run again. */
#ifndef RANDOM_H
#define RANDOM_H

#include <stddef.h>
#include <stdint.h>

extern uint64_t seed;

uint64_t draw(void);

/* A number below `bound`, which is not 0. */
size_t below(size_t bound);

void draw_bytes(uint8_t *bytes, size_t count);

#endif
