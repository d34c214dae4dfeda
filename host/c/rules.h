/* What include/luossavin.h says a call answers, written down again for the tests: the refusals in their order, and
 * with them the missing count, the key's number, the length and whether a counter came round. It goes by lengths and
 * by fields that the tests choose themselves; nothing of the library is called, and nothing that it gave back is
 * looked at. */
#ifndef RULES_H
#define RULES_H

#include "luossavin.h"

/* The most bytes of a text or a label, the most labels of a question, and how many numbers there are. */
enum { LIMIT = 16777216, CANDIDATES = 64, NUMBERS = 27 };
enum { CFB, OFB, CTR, CBC, GCM };
enum { ENCRYPT, DECRYPT };

/* The engines: the library chooses, the four tables, the gates and the plain one. */
enum { CHOSEN, TABLES, GATES, PLAIN, ENGINES };

/* The fields of a key's record that an answer goes by. */
struct holder {
    uint32_t answer;
    uint16_t number;
    uint8_t retired;
};

/* Those of a key that is set up of so many bytes and a number, and of one that is retired. */
struct holder set_up(size_t bytes, uint32_t number);
struct holder retired(struct holder key);

/* The record with these fields. */
struct luossavin_key holding(struct luossavin_key key, struct holder fields);

/* Whether every field is the same. */
int same_key(const struct luossavin_key *a, const struct luossavin_key *b);

/* A call on a whole message, or on one block. Of a message to decrypt: in Cbc, `last` is the last block once it is
 * decrypted; in Gcm, `wrong_tag` says that the tag is not the right one. `from` is what the text's counters are
 * counted from: in Ctr the IV, and in Gcm J0, of which only the last four bytes matter. */
struct whole {
    int is_block;
    uint32_t mode;
    int direction;
    struct holder key;
    size_t iv, label, data, room;
    uint8_t last[16];
    int wrong_tag;
    uint8_t from[16];
};

/* Puts a padding of 1 to 16 bytes at the end of a block. */
void pad(uint8_t block[16], uint8_t count);

int takes_iv(uint32_t mode, size_t bytes);
size_t room_needed(const struct whole *w);
struct luossavin_answer answer_to(const struct whole *w);

/* A call on a message in pieces. A start goes by the first line of fields; a piece and an end by the second, which
 * are those of the state that it is on, and by the third. In opening's end `room` is the tag's length. An end that is
 * done also goes by what all of the message's counters were counted from. */
enum kind { COUNTING, SEALING, OPENING, KINDS };
enum step { START, PIECE, END };

struct part {
    enum kind kind;
    enum step step;
    struct holder key; int decrypt; size_t iv, label;
    uint32_t stands; uint16_t number; size_t total, label_before;
    size_t data, room; int wrong_tag;
    uint8_t from[16];
};

size_t part_needs(const struct part *p);
struct luossavin_answer answer_to_part(const struct part *p);

/* The question which of the candidates a file opens under: their bytes, their lengths, and the label that the file
 * was sealed under, which is the only one that opens it; where it is spoiled none does. */
struct search {
    struct holder key;
    size_t iv, file;
    const uint8_t *labels; size_t labels_len;
    const size_t *lengths; size_t count;
    const uint8_t *under; size_t under_len; int spoiled;
};

struct luossavin_found answer_to_search(const struct search *s);

/* A range of Ctr, at an offset; or, where there is a plan, work by it. */
struct stretch {
    struct holder key;
    int decrypt;
    size_t iv, offset;
    const struct luossavin_plan *plan;
    size_t data, room;
};

struct luossavin_answer answer_to_stretch(const struct stretch *s);

/* The plan that is made, and whether one is accepted. */
enum { WORKERS = 64 };
struct luossavin_planned answer_to_planner(size_t n, size_t workers);
int is_accepted(const struct luossavin_plan *plan, size_t n);

/* What an answer has otherwise than the one that is due; NULL where they are the same. */
const char *difference(struct luossavin_answer got, struct luossavin_answer due);
const char *difference_found(struct luossavin_found got, struct luossavin_found due);
const char *difference_planned(const struct luossavin_planned *got, const struct luossavin_planned *due);

#endif
