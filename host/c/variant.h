/* Which variant of the library a program runs. */
#ifndef VARIANT_H
#define VARIANT_H

/* Its name: aarch64, x86_64 or x86_64-v3. On x86-64 it is what the library chose. */
const char *variant_name(void);

#endif
