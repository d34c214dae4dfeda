#include "calls.h"

#include "prepared.h"

#include <stddef.h>
#include <string.h>

const char *const kind_names[KINDS] = {"Ctr", "sealing", "opening"};

/* Without a hole before the last field, that a state's fields are the same is that its bytes up to there are. */
_Static_assert(offsetof(struct luossavin_ctr, key) == 32 * 4 + 3 * 16 + 8 + 4, "Ctr's state has a hole");
_Static_assert(offsetof(struct luossavin_seal, key) == 32 * 4 + 6 * 16 + 2 * 8 + 2 * 4, "sealing's state has a hole");
_Static_assert(offsetof(struct luossavin_opens, key) == 4 * 16 + 2 * 8 + 2 * 4, "opening's state has a hole");

struct luossavin_answer call_whole(const struct whole *w, struct luossavin_key key, const uint8_t *iv,
    const uint8_t *label, const uint8_t *data, uint8_t *out)
{
    if (w->is_block) {
        return (w->direction == ENCRYPT ? luossavin_block_encrypt : luossavin_block_decrypt)(
            key, data, w->data, out, w->room);
    }
    return (w->direction == ENCRYPT ? luossavin_encrypt : luossavin_decrypt)(
        w->mode, key, label, w->label, data, w->data, iv, w->iv, out, w->room);
}

void seal_blocks(struct luossavin_key key, const uint8_t *iv, const uint8_t *text, size_t length, uint8_t *out)
{
    prepared(luossavin_encrypt(CBC, key, NULL, 0, text, length, iv, 16, out, length + 16));
}

struct luossavin_found call_search(const struct search *s, struct luossavin_key key, const uint8_t *file,
    const uint8_t *iv)
{
    return luossavin_which(key, file, s->file, iv, s->iv, s->labels, s->labels_len, s->lengths, s->count);
}

struct luossavin_answer call_stretch(const struct stretch *s, struct luossavin_key key, const uint8_t *iv,
    const uint8_t *data, uint8_t *out)
{
    if (s->plan != NULL) {
        return luossavin_ctr_by_plan(key, s->decrypt, iv, s->iv, *s->plan, data, s->data, out, s->room);
    }
    return luossavin_ctr_range(key, s->decrypt, iv, s->iv, s->offset, data, s->data, out, s->room);
}

struct shelf_answer call_shelf(const struct shelf_call *c, uint8_t *shelf)
{
    if (c->does == FIND) {
        struct luossavin_shelved found = luossavin_shelf_find(shelf, c->size, c->used, c->job);
        return (struct shelf_answer){found.number, c->used, found.start, found.length};
    }
    struct luossavin_shelf now = c->does == COLLECT
        ? luossavin_shelf_collect(shelf, c->size, c->used)
        : luossavin_shelf_put(shelf, c->size, c->used, c->job, c->edition, c->sealed, c->sealed_len);
    return (struct shelf_answer){.number = now.number, .used = now.used};
}

struct luossavin_answer call_start(enum kind kind, struct state *s, const struct given *g)
{
    memset(s, 0, sizeof *s);
    s->kind = kind;
    if (kind == COUNTING) {
        struct luossavin_ctr_step step = luossavin_ctr_start(g->key, g->decrypt, g->iv, g->iv_len);
        s->is.ctr = step.state;
        return step.answer;
    }
    if (kind == SEALING) {
        struct luossavin_seal_step step = luossavin_seal_start(g->key, g->label, g->label_len, g->iv, g->iv_len);
        s->is.seal = step.state;
        return step.answer;
    }
    struct luossavin_opens_step step = luossavin_opens_start(g->key, g->label, g->label_len, g->iv, g->iv_len);
    s->is.opens = step.state;
    return step.answer;
}

struct luossavin_answer call_piece(struct state *s, const uint8_t *data, size_t data_len, uint8_t *out, size_t room)
{
    return s->kind == COUNTING ? luossavin_ctr_add(&s->is.ctr, data, data_len, out, room)
        : s->kind == SEALING   ? luossavin_seal_add(&s->is.seal, data, data_len, out, room)
                               : luossavin_opens_add(&s->is.opens, data, data_len);
}

struct luossavin_answer call_end(struct state *s, uint8_t *bytes, size_t count)
{
    return s->kind == COUNTING ? luossavin_ctr_finish(&s->is.ctr)
        : s->kind == SEALING   ? luossavin_seal_finish(&s->is.seal, bytes, count)
                               : luossavin_opens_finish(&s->is.opens, bytes, count);
}

size_t *total_of(struct state *s)
{
    return s->kind == COUNTING ? &s->is.ctr.total : s->kind == SEALING ? &s->is.seal.total : &s->is.opens.total;
}

size_t *label_of(struct state *s)
{
    return s->kind == COUNTING ? NULL : s->kind == SEALING ? &s->is.seal.label : &s->is.opens.label;
}

uint32_t *stands_of(struct state *s)
{
    return s->kind == COUNTING ? &s->is.ctr.stands : s->kind == SEALING ? &s->is.seal.stands : &s->is.opens.stands;
}

uint16_t *number_of(struct state *s)
{
    return s->kind == COUNTING ? &s->is.ctr.key : s->kind == SEALING ? &s->is.seal.key : &s->is.opens.key;
}

uint8_t *engine_of(struct state *s)
{
    return s->kind == COUNTING ? &s->is.ctr.engine : s->kind == SEALING ? &s->is.seal.engine : NULL;
}

void put_from(struct state *s, const uint8_t from[16])
{
    uint32_t low = (uint32_t)from[12] << 24 | (uint32_t)from[13] << 16 | (uint32_t)from[14] << 8 | from[15];
    if (s->kind == COUNTING) {
        memcpy(s->is.ctr.first, from, 16);
    } else {
        *(s->kind == SEALING ? &s->is.seal.low : &s->is.opens.low) = low;
    }
}

int same_state(const struct state *a, const struct state *b)
{
    size_t end = a->kind == COUNTING ? offsetof(struct luossavin_ctr, engine) + 1
        : a->kind == SEALING         ? offsetof(struct luossavin_seal, engine) + 1
                                     : offsetof(struct luossavin_opens, key) + sizeof(uint16_t);
    return a->kind == b->kind && memcmp(&a->is, &b->is, end) == 0;
}

int holds_only(const struct state *s, uint32_t stands, uint16_t number)
{
    struct state only = {.kind = s->kind};
    memset(&only.is, 0, sizeof only.is);
    *stands_of(&only) = stands;
    *number_of(&only) = number;
    return same_state(s, &only);
}

int state_is_due(const struct part *p, struct luossavin_answer due, const struct state *before, struct state *after)
{
    size_t total = p->step == START ? 0 : p->total + p->data;
    if (p->step == START && due.number != 0) {
        return holds_only(after, due.number, due.key);
    }
    if (due.number != 0 && due.number != 4) {
        return same_state(before, after);
    }
    if (p->step == END) {
        return holds_only(after, 12, due.key);
    }
    return *stands_of(after) == 0 && *total_of(after) == total && *number_of(after) == due.key;
}
