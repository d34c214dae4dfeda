/* Counters that come round within a message: IVs that lead there, and what a text's counters are counted from. Of the
 * library only the block of zeros that Gcm hashes with is taken, from its block call; the rest is worked out here. */
#ifndef WRAP_H
#define WRAP_H

#include "luossavin.h"

/* Ctr: there are `before` blocks before the one whose counter is all ones. */
void iv_near_ctr_wrap(uint8_t iv[16], uint32_t before);

/* Gcm: `iv` comes as a J0 that is wanted, and goes as the 16-byte IV that leads there. */
void iv_for_j0(struct luossavin_key key, uint8_t iv[16]);

/* The same with ffffffff less `before` in the last four bytes of J0. */
void iv_near_gcm_wrap(struct luossavin_key key, uint8_t iv[16], uint32_t before);

/* What the counters of a text are counted from: in Ctr the IV, and in Gcm J0; zeros in another mode, and under an IV
 * that the mode does not take. */
void count_from(uint32_t mode, struct luossavin_key key, const uint8_t *iv, size_t iv_len, uint8_t from[16]);

#endif
