#include "wrap.h"

#include "hash_model.h"
#include "prepared.h"
#include "rules.h"

#include <stdio.h>
#include <stdlib.h>
#include <string.h>

/* a^(2^128 - 2), which is 1 / a for every a but 0. */
static element inverse(element a)
{
    element square = a, out = ONE;
    for (int i = 1; i < 128; i++) {
        square = product(square, square);
        out = product(out, square);
    }
    return out;
}

/* All ones less `before`, in the last four bytes. */
static void put_low(uint8_t counter[16], uint32_t before)
{
    uint32_t low = 0xffffffff - before;
    for (int i = 15; i >= 12; i--) {
        counter[i] = (uint8_t)low;
        low >>= 8;
    }
}

/* H, the block of zeros encrypted; a record that is retired, or no key, has round keys as well. */
static element hash_key(struct luossavin_key key)
{
    const uint8_t zeros[16] = {0};
    uint8_t h[16];
    prepared(luossavin_block_encrypt(holding(key, (struct holder){0, 1, 0}), zeros, 16, h, 16));
    return element_of(h);
}

/* J0 of a 16-byte IV: (IV x H + 128) x H, where 128 is the length block. */
static element j0_of(element iv, element h)
{
    return product(product(iv, h) ^ 128, h);
}

void iv_near_ctr_wrap(uint8_t iv[16], uint32_t before)
{
    memset(iv, 0xff, 12);
    put_low(iv, before);
}

void iv_for_j0(struct luossavin_key key, uint8_t iv[16])
{
    element j0 = element_of(iv), h = hash_key(key), back = inverse(h);
    element found = product(product(j0, back) ^ 128, back);
    if (j0_of(found, h) != j0) {
        fprintf(stderr, "no IV for a wanted J0\n");
        exit(2);
    }
    put_element(found, iv);
}

void iv_near_gcm_wrap(struct luossavin_key key, uint8_t iv[16], uint32_t before)
{
    put_low(iv, before);
    iv_for_j0(key, iv);
}

void count_from(uint32_t mode, struct luossavin_key key, const uint8_t *iv, size_t iv_len, uint8_t from[16])
{
    memset(from, 0, 16);
    if ((mode != CTR && mode != GCM) || !takes_iv(mode, iv_len)) {
        return;
    }
    memcpy(from, iv, iv_len);
    if (iv_len == 12) {
        from[15] = 1;
    } else if (mode == GCM) {
        put_element(j0_of(element_of(iv), hash_key(key)), from);
    }
}
