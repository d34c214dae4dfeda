/* A shelf as a list of records, and what include/luossavin.h says that the three calls make of it, written down again
 * for the tests. Nothing of the library is called. */
#ifndef SHELF_MODEL_H
#define SHELF_MODEL_H

#include "luossavin.h"

/* The most bytes of a buffer, how many a record has before its sealed ones, and the most records. */
enum { SHELF = 65536, HEAD = 12, RECORDS = SHELF / HEAD };

struct shelf_record {
    int current;
    uint32_t job;
    uint16_t edition;
    const uint8_t *sealed;
    size_t length;
};

/* With room for a new one behind the most that a buffer holds. */
struct shelf_records {
    size_t count;
    struct shelf_record at[RECORDS + 1];
};

/* The records of so many bytes, which stay where they are. Whether these are records to the last byte, each with a
 * known mark. */
int read_shelf(const uint8_t *bytes, size_t n, struct shelf_records *rs);

/* Writes records whose sealed bytes stand elsewhere. How many bytes they have. */
size_t write_shelf(const struct shelf_records *rs, uint8_t *bytes);

/* How many bytes they have; the current ones alone. */
size_t bytes_of(const struct shelf_records *rs);
struct shelf_records *current_ones(const struct shelf_records *rs);

/* A call: its lengths and numbers, with the edition and the sealed bytes in putting alone. */
enum shelving { PUT, COLLECT, FIND };
extern const char *const shelving_names[3];

struct shelf_call {
    enum shelving does;
    size_t size, used;
    uint32_t job;
    uint16_t edition;
    const uint8_t *sealed;
    size_t sealed_len;
};

/* What a call hands back: `used` is what came in looking up, and start and length are 0 in the other two. */
struct shelf_answer {
    uint32_t number;
    size_t used, start, length;
};

/* The answer to a call on the buffer `before`. `after` holds the same bytes, and where the call is done the records
 * that the shelf then has are written over them. */
struct shelf_answer answer_to_shelf(const struct shelf_call *c, const uint8_t *before, uint8_t *after);

/* What an answer has otherwise than the one that is due; NULL where they are the same. */
const char *difference_shelf(struct shelf_answer got, struct shelf_answer due);

#endif
