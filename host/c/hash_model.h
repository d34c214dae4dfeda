/* Gcm's field and its hash, from SP 800-38D, sections 6.3 and 6.4: slow, a bit at a time, and nothing of the library is
 * called. An element is the number of its 16 bytes, whose top bit is the coefficient of x^0. */
#ifndef HASH_MODEL_H
#define HASH_MODEL_H

#include <stddef.h>
#include <stdint.h>

typedef unsigned __int128 element;

#define ONE ((element)1 << 127)

element element_of(const uint8_t bytes[16]);
void put_element(element e, uint8_t bytes[16]);

/* The product modulo x^128 + x^7 + x^2 + x + 1. */
element product(element a, element b);

/* The hash of bytes in blocks, zeros to the last one's end. */
element hash_of(element h, const uint8_t *bytes, size_t n);

/* a to the n, by n products. */
element power_by_products(element a, uint64_t n);

/* a to the 2^n, by n squares. */
element power_by_squares(element a, unsigned n);

#endif
