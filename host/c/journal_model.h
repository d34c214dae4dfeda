/* A journal as a list of recorded calls, and what include/luossavin.h says that a replay makes of it, written down
 * again for the tests. A call is made again by luossavin_encrypt and luossavin_decrypt, into all of the room that was
 * recorded; nothing else of the library is called. */
#ifndef JOURNAL_MODEL_H
#define JOURNAL_MODEL_H

#include "luossavin.h"

/* The most bytes of a label, of data or of an IV, and of an output; how many bytes a record has beside these; and the
 * most keys. */
enum { PART_LIMIT = 16384, OUTPUT_LIMIT = 16400, BARE = 27, MOST_KEYS = 8 };

struct bytes {
    const uint8_t *at;
    size_t length;
};

/* A recorded call: what was asked, and what was answered. */
struct entry {
    uint8_t direction, mode;
    uint16_t key;
    struct bytes label, data, iv;
    uint32_t room;
    uint8_t number;
    struct bytes output;
};

/* Puts in what the call of an entry answers on a key. The output stands in a place that the next call takes. */
struct entry answered_on(struct entry e, struct luossavin_key key);

/* Writes an entry as a record. How many bytes that has. */
size_t write_entry(const struct entry *e, uint8_t *to);

/* The number of a key's record that an answer on it repeats. */
uint16_t number_on(const struct luossavin_key *key);

/* What a replay of so many bytes answers. */
struct luossavin_replayed answer_to_replay(const struct luossavin_keys *keys, const uint8_t *file, size_t n);

/* What an answer has otherwise than the one that is due; NULL where they are the same. */
const char *difference_replayed(const struct luossavin_replayed *got, const struct luossavin_replayed *due);

#endif
