/* memset, memcpy and memmove for a program whose instructions are counted on x86-64-v3 (host/bench): 32 bytes at a time, as glibc has them
 * for AVX2, but without `rep stosb` and `rep movsb`, which the emulator counts once for each byte. Linked by --wrap. */
#include <stddef.h>
#include <stdint.h>

/* 32 bytes, at any address. */
typedef uint8_t wide __attribute__((vector_size(32), aligned(1), may_alias));

void *__wrap_memset(void *to, int value, size_t n);
void *__wrap_memcpy(void *restrict to, const void *restrict from, size_t n);
void *__wrap_memmove(void *to, const void *from, size_t n);

void *__wrap_memset(void *to, int value, size_t n)
{
    uint8_t *t = to;
    wide w = (wide){0} + (uint8_t)value;
    for (; n >= 32; n -= 32, t += 32) {
        *(wide *)t = w;
    }
    for (; n > 0; n--) {
        *t++ = (uint8_t)value;
    }
    return to;
}

void *__wrap_memcpy(void *restrict to, const void *restrict from, size_t n)
{
    uint8_t *t = to;
    const uint8_t *f = from;
    for (; n >= 32; n -= 32, t += 32, f += 32) {
        *(wide *)t = *(const wide *)f;
    }
    for (; n > 0; n--) {
        *t++ = *f++;
    }
    return to;
}

void *__wrap_memmove(void *to, const void *from, size_t n)
{
    uint8_t *t = to;
    const uint8_t *f = from;
    if (t <= f || t >= f + n) {
        return __wrap_memcpy(to, from, n);
    }
    while (n > 0) {
        n--;
        t[n] = f[n];
    }
    return to;
}
