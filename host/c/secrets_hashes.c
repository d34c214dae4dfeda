/* Hashes of halves, under secrets: H, what is hashed, and the hashes that are joined. */
#include "secrets.h"

/* Sixteen bytes as a hash. */
static struct luossavin_hash hash_in(const uint8_t *bytes)
{
    struct luossavin_hash h = {0, 0};
    for (int i = 0; i < 8; i++) {
        h.high = h.high << 8 | bytes[i];
        h.low = h.low << 8 | bytes[8 + i];
    }
    return h;
}

void hashes(void)
{
    static const uint64_t counts[] = {0, 1, 4096, 0xffffffffffffffff};
    const struct luossavin_hash h = hash_in(key_bytes), first = hash_in(text), second = hash_in(label);
    static struct luossavin_hash y;
    for (size_t i = 0; i < lengths_count; i++) {
        watch(NEITHER, "a hash of %zu bytes", lengths[i]);
        y = luossavin_hash_blocks(h, text, lengths[i]);
        is_done();
    }
    for (size_t i = 0; i < sizeof counts / sizeof *counts; i++) {
        watch(NEITHER, "two hashes joined, the second of %llu blocks", (unsigned long long)counts[i]);
        y = luossavin_hash_join(h, first, second, counts[i]);
        is_done();
    }
    make_known(&y, sizeof y);
}
