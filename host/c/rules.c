#include "rules.h"

#include <string.h>

/* A refusal, and whether what it is for is there. */
struct row {
    int holds;
    uint32_t number;
};

/* The first that holds; 0 where none does. */
static uint32_t first_of(const struct row *rows, size_t count)
{
    for (size_t i = 0; i < count; i++) {
        if (rows[i].holds) {
            return rows[i].number;
        }
    }
    return 0;
}

#define FIRST_OF(rows) first_of(rows, sizeof rows / sizeof *rows)

/* Records. */

struct holder set_up(size_t bytes, uint32_t number)
{
    const struct row rows[] = {
        {bytes != 16, 1},
        {number < 1 || number > 65535, 13},
    };
    struct holder key = {FIRST_OF(rows), 0, 0};
    if (key.answer == 0) {
        key.number = (uint16_t)number;
    }
    return key;
}

struct holder retired(struct holder key)
{
    if (key.answer == 0) {
        key.retired = 1;
    }
    return key;
}

struct luossavin_key holding(struct luossavin_key key, struct holder fields)
{
    key.answer = fields.answer;
    key.number = fields.number;
    key.retired = fields.retired;
    return key;
}

int same_key(const struct luossavin_key *a, const struct luossavin_key *b)
{
    /* without a hole, the same fields are the same bytes */
    _Static_assert(sizeof(struct luossavin_key) == 32 * 4 + 4 + 2 + 1 + 1, "the record has a hole");
    return memcmp(a, b, sizeof *a) == 0;
}

/* What a record is to a call: 0 is a key, 13 is refused so, and all else is refused with 1. */
static uint32_t refused_as(struct holder key)
{
    return key.answer == 0 ? 0 : key.answer == 13 ? 13 : 1;
}

/* A refusal that comes before a key stands has no number of one. */
static uint16_t number_in(uint32_t refusal, struct holder key)
{
    return refusal == 7 || refusal == 16 || refusal == 1 || refusal == 13 ? 0 : key.number;
}

/* Cbc's padding. */

void pad(uint8_t block[16], uint8_t count)
{
    memset(block + 16 - count, count, count);
}

static int names_padding(const uint8_t last[16])
{
    return last[15] >= 1 && last[15] <= 16;
}

/* Whether as many bytes as the last one says, counted from the end, all hold that. */
static int bears_out(const uint8_t last[16])
{
    for (int i = 1; i <= last[15] && i <= 16; i++) {
        if (last[16 - i] != last[15]) {
            return 0;
        }
    }
    return 1;
}

/* Counters. */

/* Whether a big-endian number of so many bytes, and `more`, come to what these bytes cannot hold: what is carried out
 * of the first byte. */
static int passes(const uint8_t *number, size_t bytes, uint64_t more)
{
    while (bytes-- > 0) {
        more = (more + number[bytes]) >> 8;
    }
    return more != 0;
}

/* Whether a counter comes round within a text. Ctr's first one is the IV, so that the last of b blocks has b - 1 added
 * to it; Gcm's first one is the one after J0, of which the last four bytes are counted. The other modes have none. */
static int comes_round(uint32_t mode, const uint8_t from[16], size_t text)
{
    size_t blocks = text / 16 + (text % 16 != 0);
    return mode == CTR ? blocks >= 1 && passes(from, 16, blocks - 1) : mode == GCM && passes(from + 12, 4, blocks);
}

/* Whole messages, and blocks. */

int takes_iv(uint32_t mode, size_t bytes)
{
    return bytes == 16 || (mode == GCM && bytes == 12);
}

size_t room_needed(const struct whole *w)
{
    size_t n = w->data;
    if (w->is_block) {
        return 16;
    }
    if (w->mode == CBC) {
        return w->direction == ENCRYPT ? n / 16 * 16 + 16 : n;
    }
    if (w->mode == GCM) {
        return w->direction == ENCRYPT ? n + 16 : n < 16 ? 0 : n - 16;
    }
    return n;
}

static uint32_t block_number(const struct whole *w)
{
    const struct row rows[] = {
        {refused_as(w->key) == 1, 1},
        {refused_as(w->key) == 13, 13},
        {w->data != 16, 11},
        {w->direction == ENCRYPT && w->key.retired != 0, 14},
        {w->room < 16, 6},
    };
    return FIRST_OF(rows);
}

static uint32_t message_number(const struct whole *w)
{
    int cbc = w->direction == DECRYPT && w->mode == CBC, gcm = w->direction == DECRYPT && w->mode == GCM;
    const struct row rows[] = {
        {w->mode > GCM, 7},
        {refused_as(w->key) == 1, 1},
        {refused_as(w->key) == 13, 13},
        {!takes_iv(w->mode, w->iv), 10},
        {w->direction == ENCRYPT && w->key.retired != 0, 14},
        {w->mode == GCM && w->label > LIMIT, 5},
        {w->data > (cbc || gcm ? LIMIT + 16 : LIMIT), 5},
        {cbc && w->data == 0, 8},
        {cbc && w->data % 16 != 0, 2},
        {gcm && w->data < 16, 9},
        {w->room < room_needed(w), 6},
        {cbc && !names_padding(w->last), 3},
        {cbc && !bears_out(w->last), 15},
        {gcm && w->wrong_tag, 4},
    };
    return FIRST_OF(rows);
}

struct luossavin_answer answer_to(const struct whole *w)
{
    int gcm = w->direction == DECRYPT && w->mode == GCM;
    struct luossavin_answer due = {0};
    due.number = w->is_block ? block_number(w) : message_number(w);
    due.missing = due.number == 9 ? 16 - w->data : 0;
    due.key = number_in(due.number, w->key);
    due.length = due.number != 0                                     ? 0
        : !w->is_block && w->mode == CBC && w->direction == DECRYPT ? w->data - w->last[15]
                                                                     : room_needed(w);
    due.came_round = due.number == 0 && !w->is_block && comes_round(w->mode, w->from, w->data - (gcm ? 16 : 0));
    return due;
}

/* Messages in pieces. */

static uint32_t start_number(const struct part *p)
{
    int gcm = p->kind != COUNTING, encrypts = p->kind == SEALING || (p->kind == COUNTING && !p->decrypt);
    const struct row rows[] = {
        {refused_as(p->key) == 1, 1},
        {refused_as(p->key) == 13, 13},
        {!takes_iv(gcm ? GCM : CTR, p->iv), 10},
        {encrypts && p->key.retired != 0, 14},
        {gcm && p->label > LIMIT, 5},
    };
    return FIRST_OF(rows);
}

size_t part_needs(const struct part *p)
{
    return p->step == START || p->kind == OPENING ? 0 : p->step == PIECE ? p->data : p->kind == SEALING ? 16 : 0;
}

static uint32_t later_number(const struct part *p)
{
    int takes_tag = p->kind == OPENING && p->step == END;
    uint32_t at = p->stands;
    const struct row rows[] = {
        {at == 1 || at == 5 || at == 10 || at == 13 || at == 14, at},
        {at != 0, 12},
        {p->kind != COUNTING && p->label_before > LIMIT, 5},
        {p->total > LIMIT || p->data > LIMIT - p->total, 5},
        {takes_tag && p->room != 16, 9},
        {p->room < part_needs(p), 6},
        {takes_tag && p->wrong_tag, 4},
    };
    return FIRST_OF(rows);
}

struct luossavin_answer answer_to_part(const struct part *p)
{
    struct luossavin_answer due = {0};
    due.number = p->step == START ? start_number(p) : later_number(p);
    due.missing = due.number == 9 && p->room < 16 ? 16 - p->room : 0;
    due.key = p->step == START ? number_in(due.number, p->key) : p->number;
    due.length = due.number == 0 ? part_needs(p) : 0;
    due.came_round = due.number == 0 && p->step == END
        && comes_round(p->kind == COUNTING ? CTR : GCM, p->from, p->total);
    return due;
}

/* Which label a file opens under. */

/* Whether the lengths add up to the buffer; what is left of it cannot come round. */
static int add_up(const size_t *lengths, size_t count, size_t left)
{
    for (size_t i = 0; i < count; i++) {
        if (lengths[i] > left) {
            return 0;
        }
        left -= lengths[i];
    }
    return left == 0;
}

static int any_above(size_t limit, const size_t *lengths, size_t count)
{
    for (size_t i = 0; i < count; i++) {
        if (lengths[i] > limit) {
            return 1;
        }
    }
    return 0;
}

static uint32_t search_number(const struct search *s)
{
    const struct row rows[] = {
        {s->count > CANDIDATES, 16},
        {!add_up(s->lengths, s->count, s->labels_len), 16},
        {refused_as(s->key) == 1, 1},
        {refused_as(s->key) == 13, 13},
        {!takes_iv(GCM, s->iv), 10},
        {any_above(LIMIT, s->lengths, s->count), 5},
        {s->file > LIMIT + 16, 5},
        {s->file < 16, 9},
    };
    return FIRST_OF(rows);
}

static int same_bytes(const uint8_t *a, size_t a_len, const uint8_t *b, size_t b_len)
{
    return a_len == b_len && (a_len == 0 || memcmp(a, b, a_len) == 0);
}

/* The first candidate that is the label; a list that is in order is not read past its end. */
static void find(const struct search *s, struct luossavin_found *due)
{
    for (size_t i = 0, start = 0; i < s->count; start += s->lengths[i], i++) {
        if (same_bytes(s->labels + start, s->lengths[i], s->under, s->under_len)) {
            due->found = 1;
            due->place = (uint32_t)i;
            due->start = start;
            due->length = s->lengths[i];
            return;
        }
    }
}

struct luossavin_found answer_to_search(const struct search *s)
{
    struct luossavin_found due = {0};
    due.answer.number = search_number(s);
    due.answer.missing = due.answer.number == 9 ? 16 - s->file : 0;
    due.answer.key = number_in(due.answer.number, s->key);
    if (due.answer.number == 0 && !s->spoiled) {
        find(s, &due);
    }
    return due;
}

/* Ranges and plans. */

int is_accepted(const struct luossavin_plan *plan, size_t n)
{
    /* wide enough for any sum of a start and a length */
    unsigned __int128 end = 0;
    if (plan->count > WORKERS || (plan->count == 0) != (n == 0)) {
        return 0;
    }
    for (size_t i = 0; i < plan->count; i++) {
        if (plan->starts[i] != end || plan->lengths[i] == 0 || (i + 1 < plan->count && plan->lengths[i] % 16 != 0)) {
            return 0;
        }
        end = (unsigned __int128)plan->starts[i] + plan->lengths[i];
    }
    return end == n;
}

struct luossavin_planned answer_to_planner(size_t n, size_t workers)
{
    const struct row rows[] = {
        {workers < 1 || workers > WORKERS, 17},
        {n > LIMIT, 5},
    };
    struct luossavin_planned due = {.answer = {.number = FIRST_OF(rows)}};
    size_t blocks, size;
    if (due.answer.number != 0 || n == 0) {
        return due;
    }
    blocks = (n + 15) / 16;
    size = 16 * ((blocks + workers - 1) / workers);
    due.plan.count = (n + size - 1) / size;
    for (size_t i = 0; i < due.plan.count; i++) {
        due.plan.starts[i] = i * size;
        due.plan.lengths[i] = i + 1 < due.plan.count ? size : n - i * size;
    }
    return due;
}

struct luossavin_answer answer_to_stretch(const struct stretch *s)
{
    const struct row rows[] = {
        {refused_as(s->key) == 1, 1},
        {refused_as(s->key) == 13, 13},
        {!takes_iv(CTR, s->iv), 10},
        {!s->decrypt && s->key.retired != 0, 14},
        {s->offset > LIMIT || s->data > LIMIT - s->offset, 5},
        {s->plan != NULL && !is_accepted(s->plan, s->data), 18},
        {s->room < s->data, 6},
    };
    struct luossavin_answer due = {.number = FIRST_OF(rows)};
    due.key = number_in(due.number, s->key);
    due.length = due.number == 0 ? s->data : 0;
    return due;
}

const char *difference(struct luossavin_answer got, struct luossavin_answer due)
{
    return got.number != due.number         ? "its number"
        : got.missing != due.missing        ? "its missing count"
        : got.key != due.key                ? "its key's number"
        : got.length != due.length          ? "its length"
        : got.came_round != due.came_round  ? "whether a counter came round"
                                            : NULL;
}

const char *difference_found(struct luossavin_found got, struct luossavin_found due)
{
    const char *what = difference(got.answer, due.answer);
    return what != NULL            ? what
        : got.found != due.found   ? "whether one is found"
        : got.place != due.place   ? "its place"
        : got.start != due.start   ? "its start"
        : got.length != due.length ? "its label's length"
                                   : NULL;
}

const char *difference_planned(const struct luossavin_planned *got, const struct luossavin_planned *due)
{
    const char *what = difference(got->answer, due->answer);
    return what != NULL                                                               ? what
        : got->plan.count != due->plan.count                                          ? "how many pieces it has"
        : memcmp(got->plan.starts, due->plan.starts, sizeof due->plan.starts) != 0    ? "where its pieces start"
        : memcmp(got->plan.lengths, due->plan.lengths, sizeof due->plan.lengths) != 0 ? "its pieces' lengths"
                                                                                      : NULL;
}
