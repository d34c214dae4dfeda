/* Calls that a test makes to have something to go by. */
#ifndef PREPARED_H
#define PREPARED_H

#include <luossavin.h>
#include <stdio.h>
#include <stdlib.h>

/* Ends the program where such a call was refused: what follows would say nothing. */
static inline void prepared(struct luossavin_answer a)
{
    if (a.number != LUOSSAVIN_DONE) {
        fprintf(stderr, "a call that a test goes by is refused: %u %s\n", a.number, luossavin_refusal_name(a.number));
        abort();
    }
}

#endif
