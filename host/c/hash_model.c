#include "hash_model.h"

#include <string.h>

element element_of(const uint8_t bytes[16])
{
    element e = 0;
    for (int i = 0; i < 16; i++) {
        e = e << 8 | bytes[i];
    }
    return e;
}

void put_element(element e, uint8_t bytes[16])
{
    for (int i = 15; i >= 0; i--) {
        bytes[i] = (uint8_t)e;
        e >>= 8;
    }
}

element product(element a, element b)
{
    element sum = 0;
    for (int place = 0; place < 128; place++) {
        int falls_out = (int)(b & 1);
        if ((a << place) >> 127) {
            sum ^= b;
        }
        b >>= 1;
        if (falls_out) {
            b ^= (element)0xe1 << 120;
        }
    }
    return sum;
}

element hash_of(element h, const uint8_t *bytes, size_t n)
{
    element y = 0;
    for (size_t at = 0; at < n; at += 16) {
        uint8_t block[16] = {0};
        memcpy(block, bytes + at, n - at < 16 ? n - at : 16);
        y = product(y ^ element_of(block), h);
    }
    return y;
}

element power_by_products(element a, uint64_t n)
{
    element out = ONE;
    for (uint64_t i = 0; i < n; i++) {
        out = product(out, a);
    }
    return out;
}

element power_by_squares(element a, unsigned n)
{
    for (unsigned i = 0; i < n; i++) {
        a = product(a, a);
    }
    return a;
}
