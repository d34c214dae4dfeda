/* Which variant the shared library chooses, as a program sees it that loads it.
 *
 *   chosen LIBRARY DISTANCE      DISTANCE: of luossavin_variant from luossavin_key_new, in bytes, as nm has it
 *
 * The library does not export the variant, so its place is told. The number that stands there is printed: 1: x86_64, 2: x86_64-v3. Exit
 * status 1 where that cannot be done, or where it is not there before the first call, and as it was after it.
 */
#include "luossavin.h"

#include <dlfcn.h>
#include <stdint.h>
#include <stdio.h>
#include <stdlib.h>
#include <string.h>

int main(int count, char **words)
{
    static const uint8_t bytes[16];
    struct luossavin_key (*key_new)(const uint8_t *, size_t, uint32_t);
    if (count != 3) return 1;
    void *library = dlopen(words[1], RTLD_NOW);
    void *place = library == NULL ? NULL : dlsym(library, "luossavin_key_new");
    if (place == NULL) {
        fprintf(stderr, "%s\n", dlerror());
        return 1;
    }
    memcpy(&key_new, &place, sizeof key_new);
    const volatile uint32_t *variant = (uint32_t *)((char *)place + strtol(words[2], NULL, 0));
    uint32_t before = *variant;
    printf("%u\n", before);
    return !(before != 0 && key_new(bytes, sizeof bytes, 1).answer == 0 && *variant == before);
}
