/* The library's calls as the rules see them, for the tests: those on blocks and whole messages behind one shape, and
 * the three kinds of messages in pieces behind another; the question which label a file opens under; ranges and work by
 * a plan; and the three calls on a shelf, as shelf_model.h sees them. */
#ifndef CALLS_H
#define CALLS_H

#include "rules.h"
#include "shelf_model.h"

/* The call of `w`, which has the lengths, on a record, whatever the fields of the key in `w` are. */
struct luossavin_answer call_whole(const struct whole *w, struct luossavin_key key, const uint8_t *iv,
    const uint8_t *label, const uint8_t *data, uint8_t *out);

/* Cbc of whole blocks without the padding block, so that they decrypt to `text` itself. `out` has room for 16 bytes
 * more. */
void seal_blocks(struct luossavin_key key, const uint8_t *iv, const uint8_t *text, size_t length, uint8_t *out);

/* The question of `s`, which has the lengths and the candidates, on a record. */
struct luossavin_found call_search(const struct search *s, struct luossavin_key key, const uint8_t *file,
    const uint8_t *iv);

/* The range of `s`, or the work by its plan, on a record. */
struct luossavin_answer call_stretch(const struct stretch *s, struct luossavin_key key, const uint8_t *iv,
    const uint8_t *data, uint8_t *out);

/* The call of `c` on a buffer. */
struct shelf_answer call_shelf(const struct shelf_call *c, uint8_t *shelf);

/* In pieces, a call puts the next state in the place of the one before. */

extern const char *const kind_names[KINDS];

struct state {
    enum kind kind;
    union {
        struct luossavin_ctr ctr;
        struct luossavin_seal seal;
        struct luossavin_opens opens;
    } is;
};

/* What a start is given: Ctr takes no label, and the direction is Ctr's alone. */
struct given {
    struct luossavin_key key;
    bool decrypt;
    const uint8_t *iv, *label;
    size_t iv_len, label_len;
};

struct luossavin_answer call_start(enum kind kind, struct state *s, const struct given *g);

/* Opening takes neither out nor room. */
struct luossavin_answer call_piece(struct state *s, const uint8_t *data, size_t data_len, uint8_t *out, size_t room);

/* `bytes` are lent for sealing's tag, or are opening's; Ctr takes none. */
struct luossavin_answer call_end(struct state *s, uint8_t *bytes, size_t count);

/* Whether every field is the same. */
int same_state(const struct state *a, const struct state *b);

/* Whether every field is zero but what it stands at, and its key's number. */
int holds_only(const struct state *s, uint32_t stands, uint16_t number);

/* Fields that a forged state is given; Ctr has no label, and gives NULL. */
size_t *total_of(struct state *s);
size_t *label_of(struct state *s);
uint32_t *stands_of(struct state *s);
uint16_t *number_of(struct state *s);

/* The mark of the engine; opening has none, and gives NULL. */
uint8_t *engine_of(struct state *s);

/* What the message's counters are counted from, put into a state: Ctr keeps all of it, Gcm's two the last four bytes
 * as a number. */
void put_from(struct state *s, const uint8_t from[16]);

/* Whether the state after a call is the one that is due with its answer: a refusal leaves the one before, or, of a
 * start, nothing but its number and the key's; an end leaves no more; a piece adds its length to the total. */
int state_is_due(const struct part *p, struct luossavin_answer due, const struct state *before, struct state *after);

#endif
