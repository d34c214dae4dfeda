/* Recorded calls of libsm, read from standard input in the form that crates/rust_answers/README.md gives. */
#ifndef RECORDS_H
#define RECORDS_H

#include "rules.h"

/* In the place of a mode: a single block. */
enum { BLOCK = 5 };
enum { OK, ERROR_BLOCK_SIZE, ERROR_DATA_LEN, INVALID_LAST_U8, INVALID_TAG, PANICKED };

struct field {
    const uint8_t *bytes;
    size_t length;
};

struct record {
    uint8_t part, direction, mode, name;
    struct field key, iv, label, data, output;
};

/* Reads the head of a list and gives the number of its records. Ends the program with a message where
 * standard input is no list. */
uint32_t read_head(void);

/* Reads one record. Its fields are good until the next one is read. Ends the program with a message
 * where the list is cut. */
void read_record(struct record *r);

extern const char *const mode_names[6];
extern const char *const direction_names[2];
extern const char *const answer_names[6];

#endif
