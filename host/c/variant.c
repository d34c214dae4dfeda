/* Which variant of the library a program runs, and that it is the one that it is to run.
 *
 *   cc -DEXPECTED_VARIANT=N .. variant.c ..       1: x86_64, 2: x86_64-v3, 3: aarch64
 *
 * On x86-64 the library chooses when the program starts, or at a call that comes earlier (lib/choose-x86_64.s). A call is made here, before
 * `main`. Where another variant was chosen than the expected one, the program says so and ends with exit status 70: a test of one variant
 * cannot pass by running another.
 * Without EXPECTED_VARIANT any variant will do.
 */
#include "variant.h"

#include "luossavin.h"

#include <stdint.h>
#include <stdio.h>
#include <stdlib.h>

enum { NOT_CHOSEN, PLAIN, V3, ARM };

#ifdef __x86_64__
extern uint32_t luossavin_variant __attribute__((visibility("hidden")));

static uint32_t chosen(void)
{
    return *(volatile uint32_t *)&luossavin_variant;
}
#else
static uint32_t chosen(void)
{
    return ARM;
}
#endif

static const char *name_of(uint32_t variant)
{
    static const char *const names[] = {"none", "x86_64", "x86_64-v3", "aarch64"};
    return variant <= ARM ? names[variant] : "unknown";
}

const char *variant_name(void)
{
    return name_of(chosen());
}

#ifdef EXPECTED_VARIANT
__attribute__((constructor)) static void check_variant(void)
{
    static const uint8_t bytes[16];
    struct luossavin_key key = luossavin_key_new(bytes, sizeof bytes, 1);
    if (key.answer != 0 || chosen() != EXPECTED_VARIANT) {
        fprintf(stderr, "the variant is to be %s, and %s was chosen\n", name_of(EXPECTED_VARIANT), variant_name());
        exit(70);
    }
}
#endif
