#include "random.h"

#include <string.h>

uint64_t seed;

uint64_t draw(void)
{
    uint64_t z = seed += 0x9e3779b97f4a7c15;
    z = (z ^ (z >> 30)) * 0xbf58476d1ce4e5b9;
    z = (z ^ (z >> 27)) * 0x94d049bb133111eb;
    return z ^ (z >> 31);
}

size_t below(size_t bound)
{
    return (size_t)(draw() % bound);
}

void draw_bytes(uint8_t *bytes, size_t count)
{
    while (count > 0) {
        uint64_t word = draw();
        size_t n = count < sizeof word ? count : sizeof word;
        memcpy(bytes, &word, n);
        bytes += n;
        count -= n;
    }
}
