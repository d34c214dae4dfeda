/* Messages in pieces: the header's loop, the three kinds against the single call, each refusal and which comes first; every record, size
 * and room of a start, a piece and an end; states that are none, that have ended, that stand at the limit, or that say other counters. A
 * state must be the one before it after every refusal. */
#include "test.h"

#include "prepared.h"
#include "wrap.h"

#include <stdio.h>
#include <stdlib.h>
#include <string.h>

/* What runs, behind a piece of `before` bytes; the state that it left has the fields of `now` put in. */
static struct part now;
static size_t before_now;

static void describe_part(char *words, size_t room)
{
    static const char *const steps[] = {"start", "piece", "end"};
    int n = snprintf(words, room,
        "%s, %s, record %u, %u, %u, %s, iv %zu, label %zu, before %zu, total %zu, stands %u, key %u, data %zu, room %zu, "
        "tag %s, counted from ", kind_names[now.kind], steps[now.step], now.key.answer, now.key.number, now.key.retired,
        now.decrypt ? "decrypt" : "encrypt", now.iv, now.label, before_now, now.total, now.stands, now.number, now.data, now.room,
        now.wrong_tag ? "wrong" : "right");
    for (int i = 0; i < 16; i++) {
        n += snprintf(words + n, room - (size_t)n, "%02x", now.from[i]);
    }
}

/* Against the single call. */

/* A start under the key and so many bytes of the IV. */
static struct luossavin_answer start(enum kind kind, size_t iv_len, struct state *s)
{
    const struct given g = {.key = key, .iv = iv, .label = label, .iv_len = iv_len, .label_len = sizeof label};
    return call_start(kind, s, &g);
}

struct luossavin_answer go_by(size_t by, struct luossavin_answer a, struct state *s, const uint8_t *data, size_t n,
    uint8_t *out, size_t room)
{
    size_t written = 0;
    check(a.came_round == 0, "whether a counter came round", "a start", n);
    for (size_t i = 0; a.number == 0 && i < n; i += by) {
        a = call_piece(s, data + i, n - i < by ? n - i : by, out + written, room - written);
        written += a.length;
        check(a.came_round == 0, "whether a counter came round", "a piece", i);
    }
    return a.number != 0 ? a : s->kind == OPENING ? call_end(s, (uint8_t *)data + n, 16) : call_end(s, out + written, room - written);
}

/* Ctr or sealing, in pieces of `by` bytes, against the single call. */
static void written_by(enum kind kind, size_t iv_len, size_t by, const uint8_t *text, size_t n)
{
    uint8_t whole[ROOM], *out = lend_again(one);
    size_t tag = kind == SEALING ? 16 : 0;
    struct state s;
    struct luossavin_answer a = start(kind, iv_len, &s);
    prepared(luossavin_encrypt(kind == COUNTING ? CTR : GCM, key, label, sizeof label, text, n, iv, iv_len, whole, ROOM));
    check(done(go_by(by, a, &s, text, n, out, ROOM), tag), "the end of pieces is done", kind_names[kind], n);
    check(untouched(one, n + tag), "pieces keep to their length", kind_names[kind], n);
    check(memcmp(out, whole, n + tag) == 0, "pieces are the single call's", kind_names[kind], n);
}

/* Opening, in pieces of `by` bytes, what was sealed, then with another tag and another text. */
static void opened_by(size_t iv_len, size_t by, const uint8_t *text, size_t n)
{
    static const uint8_t changes[] = {0, 1, 1};
    uint8_t whole[ROOM];
    struct state s;
    prepared(luossavin_encrypt(GCM, key, label, sizeof label, text, n, iv, iv_len, whole, ROOM));
    for (int i = 0; i < 3; i++) {
        size_t place = i == 1 ? n + 15 : n / 2;
        struct luossavin_answer a = start(OPENING, iv_len, &s), due = {.number = changes[i] ? 4 : 0, .key = NUMBER};
        whole[place] ^= changes[i];
        check(difference(go_by(by, a, &s, whole, n, NULL, 0), due) == NULL, "yes or no", "opening in pieces", n);
        whole[place] ^= changes[i];
    }
}

static void by_pieces(size_t by, size_t n)
{
    struct buffer text = lend_input(n, n);
    shut(text);
    written_by(COUNTING, 16, by, text.bytes, n);
    for (size_t iv_len = 12; iv_len <= 16; iv_len += 4) {
        written_by(SEALING, iv_len, by, text.bytes, n);
        opened_by(iv_len, by, text.bytes, n);
    }
    give_back(text);
}

static void rfc_8998_by(size_t by)
{
    struct given g = {luossavin_key_new(rfc_key, 16, NUMBER), false, rfc_iv, rfc_label, 12, 20};
    struct state s;
    uint8_t *out = lend_again(one);
    struct luossavin_answer a = call_start(SEALING, &s, &g);
    check(done(go_by(by, a, &s, rfc_text, 64, out, ROOM), 16), "it is sealed", "RFC 8998 in pieces", by);
    check(memcmp(out, rfc_sealed, 80) == 0 && untouched(one, 80), "ciphertext and tag", "RFC 8998 in pieces", by);
    a = call_start(OPENING, &s, &g);
    check(done(go_by(by, a, &s, rfc_sealed, 64, NULL, 0), 0), "it opens", "RFC 8998 in pieces", by);
    g.label_len = 19;
    a = call_start(OPENING, &s, &g);
    check(go_by(by, a, &s, rfc_sealed, 64, NULL, 0).number == 4, "a shorter label", "RFC 8998 in pieces", by);
}

/* Steps that follow one another in one variable, which is then read for a call and written by it. */
static void one_variable(void)
{
    uint8_t whole[ROOM], out[ROOM];
    struct luossavin_seal_step step = luossavin_seal_start(key, label, sizeof label, iv, 12);
    prepared(luossavin_encrypt(GCM, key, label, sizeof label, rfc_text, 40, iv, 12, whole, ROOM));
    step = luossavin_seal_piece(step.state, rfc_text, 23, out, ROOM);
    check(done(step.answer, 23), "a piece is done", "one variable", 23);
    step = luossavin_seal_piece(step.state, rfc_text + 23, 17, out + 23, ROOM - 23);
    check(done(step.answer, 17), "a piece is done", "one variable", 17);
    step = luossavin_seal_end(step.state, out + 40, ROOM - 40);
    check(done(step.answer, 16), "the end is done", "one variable", 16);
    check(memcmp(out, whole, 56) == 0, "it is the single call's", "one variable", 56);
}

/* 16,777,216 bytes in all: an empty piece is done then, and one byte more is not. */
static void to_the_limit(void)
{
    struct state s;
    start(OPENING, 12, &s);
    check(done(call_piece(&s, too_long, LIMIT - 5, NULL, 0), 0), "a piece is done", "to the limit", LIMIT - 5);
    check(call_piece(&s, too_long, 6, NULL, 0).number == 5, "a byte too many", "to the limit", 6);
    check(done(call_piece(&s, too_long, 5, NULL, 0), 0), "a piece is done", "to the limit", 5);
    check(done(call_piece(&s, NULL, 0, NULL, 0), 0), "an empty piece is done", "at the limit", 0);
    check(call_piece(&s, too_long, 1, NULL, 0).number == 5, "a byte more", "at the limit", 1);
    check(call_end(&s, (uint8_t *)rfc_key, 16).number == 4, "no such tag", "at the limit", 16);
}

/* Starts. */

/* Holds the answer, then the state, to what the header says. Whether all is as it should be so far. */
static int in_order(struct luossavin_answer a, struct luossavin_answer due, const struct state *before, struct state *after)
{
    return judge(a, due) && holds_now(state_is_due(&now, due, before, after) ? NULL : "its state");
}

/* What is in the place of a state where a start was refused, and the state after an end, answer that again whatever they are given, and
 * stay. */
static void answers_again(struct state *s, uint32_t number, uint16_t key_number)
{
    const struct luossavin_answer due = {.number = number, .key = key_number};
    struct buffer out = lend(16, LENT), over = lend_input(LIMIT + 1, LIMIT);
    for (size_t n = 0; n <= 16; n += 8) {
        judge(call_piece(s, n ? iv : NULL, n, out.bytes, 0), due);
        judge(call_end(s, out.bytes, n), due);
    }
    judge(call_piece(s, NULL, 0, out.bytes, 16), due);
    judge(call_piece(s, over.bytes, over.length, out.bytes, 0), due);
    holds_now(holds_only(s, number, key_number) && untouched(out, 0) ? NULL : "its state after calls");
    give_back(out);
}

/* A start that is done gives what it gives under the key itself, whatever its number, and whether or not it is retired. */
static const char *difference_start(const struct part *p, struct given given, struct state s)
{
    struct state other;
    given.key = holding(given.key, sound);
    prepared(call_start(p->kind, &other, &given));
    *number_of(&s) = NUMBER;
    return same_state(&s, &other) ? NULL : "its state is not that of the key";
}

static void try_start(struct part p)
{
    struct beside b = lend_beside(p.kind == COUNTING ? CTR : GCM, p.iv, p.label);
    struct given given = {record(p.key), p.decrypt, lent(b.iv), lent(b.label), p.iv, p.label};
    struct luossavin_answer due;
    struct state s;
    p.step = START;
    due = answer_to_part(&p);
    now = p;
    describe = describe_part;
    if (in_order(call_start(p.kind, &s, &given), due, NULL, &s)) {
        if (due.number != 0) {
            answers_again(&s, due.number, due.key);
        } else {
            holds_now(difference_start(&p, given, s));
        }
    }
    take_back(b);
}

/* Numbers that are written down: each refusal of a start, alone and where another would come behind it. */
static void written_starts(void)
{
    enum { ANY = KINDS, OVER = LIMIT + 1 };
    static const struct { unsigned kind; struct holder key; int decrypt; size_t iv, label; uint32_t number; } rows[] = {
        {ANY, {1, 0, 0}, 0, 16, 6, 1}, {ANY, {1, 0, 0}, 0, 13, OVER, 1}, {ANY, {13, 0, 0}, 0, 16, 6, 13},
        {ANY, {13, 0, 0}, 0, 13, OVER, 13}, {ANY, {0, NUMBER, 0}, 0, 13, 6, 10}, {ANY, {0, NUMBER, 0}, 0, 0, OVER, 10},
        {ANY, {0, NUMBER, 1}, 0, 17, OVER, 10},
        {COUNTING, {0, NUMBER, 0}, 0, 12, 0, 10}, {COUNTING, {0, NUMBER, 0}, 1, 12, 0, 10}, {COUNTING, {0, NUMBER, 1}, 0, 12, 0, 10},
        {COUNTING, {0, NUMBER, 1}, 0, 16, 0, 14}, {COUNTING, {0, NUMBER, 1}, 1, 16, 0, 0}, {SEALING, {0, NUMBER, 1}, 0, 13, 6, 10},
        {SEALING, {0, NUMBER, 1}, 0, 12, 6, 14}, {SEALING, {0, NUMBER, 1}, 0, 16, OVER, 14}, {SEALING, {0, NUMBER, 1}, 0, 12, OVER, 14},
        {SEALING, {0, NUMBER, 0}, 0, 12, OVER, 5}, {OPENING, {0, NUMBER, 0}, 0, 16, OVER, 5}, {OPENING, {0, NUMBER, 1}, 0, 12, OVER, 5},
        {OPENING, {0, NUMBER, 1}, 0, 12, 6, 0}};
    for (size_t i = 0; i < sizeof rows / sizeof *rows; i++) {
        struct part p = {.key = rows[i].key, .decrypt = rows[i].decrypt, .iv = rows[i].iv, .label = rows[i].label};
        for (p.kind = COUNTING; p.kind < KINDS; p.kind++) {
            if (rows[i].kind == ANY || rows[i].kind == (unsigned)p.kind) {
                check(answer_to_part(&p).number == rows[i].number, "a start's number that is written down", kind_names[p.kind], i);
                try_start(p);
            }
        }
    }
}

/* Of every record, IV and label, both directions of Ctr among them. */
static void on_record(struct holder fields)
{
    static const size_t labels[] = {0, 1, 6, 15, 16, 17, 33, LIMIT + 1};
    for (int i = 0; i < 3 * 2 * IVS * 8; i++) {
        struct part p = {.kind = (enum kind)(i % 3), .key = fields, .decrypt = i / 3 % 2, .iv = iv_lengths[i / 6 % IVS],
            .label = labels[i / 6 / IVS]};
        try_start(p);
    }
}

void pieces(void)
{
    static const size_t by[] = {1, 7, 16, 17, 64};
    for (int i = 0; i < 5; i++) {
        for (size_t n = 0; n <= 40; n++) {
            by_pieces(by[i], n);
        }
        rfc_8998_by(by[i]);
    }
    one_variable();
    to_the_limit();
    written_starts();
    every_record(on_record);
}

/* Of any size. */

/* The message that pieces before a call are of: opening's is a sealed one, of which `before` bytes are the
 * ciphertext, so that there is a tag to give. */
static uint8_t text[LIMIT], sealed[LIMIT + 16];

/* A call on such a message, as it was begun. */
static struct part on_message(enum kind kind, enum step step)
{
    struct part p = {.kind = kind, .step = step, .number = NUMBER};
    uint32_t mode = kind == COUNTING ? CTR : GCM;
    uint8_t under[16];
    near_wrap(mode, under);
    count_from(mode, record(sound), under, 16, p.from);
    return p;
}

static void begin(enum kind kind, size_t before, struct state *s)
{
    uint8_t under[16];
    const struct given given = {.key = record(sound), .iv = under, .iv_len = 16};
    static uint8_t out[LIMIT];
    near_wrap(kind == COUNTING ? CTR : GCM, under);
    prepared(luossavin_encrypt(GCM, given.key, NULL, 0, text, before, under, 16, sealed, sizeof sealed));
    prepared(call_start(kind, s, &given));
    prepared(call_piece(s, kind == OPENING ? sealed : text, before, out, sizeof out));
}

/* A state is a value, so the one before a call serves many, whatever has come of the others since. Its counters stay the message's own
 * unless the call is to find others. */
static void prepare(const struct part *p, size_t before, struct state *s)
{
    static struct state begun;
    static size_t begun_with = SIZE_MAX;
    if (begun_with != before || begun.kind != p->kind) {
        begin(p->kind, before, &begun);
        begun_with = before;
    }
    *s = begun;
    *total_of(s) = p->total;
    *stands_of(s) = p->stands;
    *number_of(s) = p->number;
    if (memcmp(p->from, on_message(p->kind, p->step).from, 16) != 0) {
        put_from(s, p->from);
    }
}

/* What is lent beside the data: an output buffer, or opening's tag. */
static struct buffer lend_out(const struct part *p, size_t before)
{
    struct buffer out = lend(p->room, LENT);
    if (p->step == END && p->kind == OPENING) {
        fill(out);
        if (p->room == 16) {
            memcpy(out.bytes, sealed + before, 16);
            out.bytes[15] ^= p->wrong_tag;
        }
        shut(out);
    }
    return out;
}

static struct luossavin_answer call(const struct part *p, struct state *s, const uint8_t *data, uint8_t *out, size_t room)
{
    return p->step == PIECE ? call_piece(s, data, p->data, out, room) : call_end(s, out, room);
}

/* Whether a done call gave what it gives in plain memory with room to spare. */
static int result_is(const struct part *p, const struct state *before, struct buffer data, struct buffer out, struct luossavin_answer due)
{
    static uint8_t again[LIMIT + 100];
    struct state s = *before;
    return p->kind == OPENING
        || (difference(call(p, &s, data.bytes, again, p->data + 100), due) == NULL && memcmp(again, out.bytes, due.length) == 0);
}

/* A call behind a piece of `before` bytes. */
static void try(struct part p, size_t before)
{
    struct luossavin_answer due = answer_to_part(&p);
    struct buffer data = lend_input(p.data, due.number == 5 ? LIMIT / 2 : LIMIT), out;
    struct state start, after;
    now = p;
    before_now = before;
    describe = describe_part;
    prepare(&p, before, &start);
    after = start;
    shut(data);
    out = lend_out(&p, before);
    if (in_order(call(&p, &after, lent(data), lent(out), p.room), due, &start, &after)) {
        if (p.step != END || p.kind != OPENING) {
            wrote_only(out, due.length);
        }
        holds_now(due.number != 0 || result_is(&p, &start, data, out, due) ? NULL : "its output goes by more than its inputs");
        kept(data);
        if (p.step == END && (due.number == 0 || due.number == 4)) {
            answers_again(&after, 12, due.key);
        }
    }
    give_back(data);
    give_back(out);
}

/* A piece and an end behind `before` bytes, into every room up to one more than needed; opening has no room, and
 * every length of tag. */
static void at_place(enum kind kind, size_t before)
{
    struct part p = on_message(kind, PIECE);
    p.total = before;
    for (p.data = 0; p.data <= 34; p.data += is_sparse ? 3 : 1) {
        size_t most = kind == OPENING ? 0 : p.data + 1;
        for (p.room = 0; p.room <= most; p.room++) {
            try(p, before);
        }
    }
    /* one byte too many, which comes before room */
    p.data = LIMIT - before + 1;
    p.room = 0;
    try(p, before);
    p.step = END;
    p.data = 0;
    for (p.room = 0; p.room <= 40; p.room++) {
        for (p.wrong_tag = 0; p.wrong_tag <= (kind == OPENING); p.wrong_tag++) {
            try(p, before);
        }
    }
}

/* States that are none or have ended: those that the library gives, and what a host may put there. The number of
 * the key is repeated by each. */
static void not_standing(enum kind kind)
{
    static const uint32_t stands[] = {1, 5, 10, 13, 14, 12, 2, 4, 6, 9, 11, 15, 16, 255, 256, 65536, 0x80000000, 0xffffffff};
    static const uint16_t numbers[] = {0, 1, 65535};
    for (int i = 0; i < 18; i++) {
        struct part p = on_message(kind, PIECE);
        p.total = 17;
        p.stands = stands[i];
        p.number = numbers[i % 3];
        for (p.data = 0; p.data <= 17; p.data++) {
            p.room = 0;
            try(p, 17);
            p.room = kind == OPENING ? 0 : 40;
            try(p, 17);
        }
        p.step = END;
        p.data = 0;
        for (p.room = 0; p.room <= 17; p.room++) {
            try(p, 17);
        }
    }
}

/* Totals about the limit and far over it, which no piece was ever counted for. */
static void forged_totals(enum kind kind)
{
    static const size_t totals[] = {LIMIT - 17, LIMIT - 16, LIMIT - 1, LIMIT, LIMIT + 1, LIMIT + 16, (size_t)1 << 32,
        SIZE_MAX / 2, SIZE_MAX - 16, SIZE_MAX};
    for (int i = 0; i < 10; i++) {
        struct part p = on_message(kind, PIECE);
        p.number = 65535;
        p.total = totals[i];
        for (p.data = 0; p.data <= 18; p.data++) {
            p.room = kind == OPENING ? 0 : p.data;
            try(p, 3);
            p.room = 0;
            try(p, 3);
        }
        p.step = END;
        p.data = 0;
        p.wrong_tag = kind == OPENING; /* the tag is not that of such a total */
        for (p.room = 0; p.room <= 17; p.room++) {
            try(p, 3);
        }
    }
}

/* Ends of a message of so many bytes that was counted from something else, or so its state says. */
static void forged_counters(enum kind kind)
{
    static const uint32_t before[] = {0, 1, 2, 3, 255, 256, LIMIT / 16 - 2, LIMIT / 16 - 1, LIMIT / 16, 0x7fffffff, 0xfffffffe, 0xffffffff};
    static const uint8_t tops[] = {0xff, 0xfe, 0x7f, 0};
    static const size_t totals[] = {0, 1, 15, 16, 17, 32, 33, LIMIT - 16, LIMIT - 15, LIMIT, LIMIT + 1, SIZE_MAX};
    struct part p = on_message(kind, END);
    for (int i = 0; i < 12 * 4 * 12; i++) {
        iv_near_ctr_wrap(p.from, before[i % 12]);
        p.from[i % 7] = tops[i / 12 % 4];
        p.total = totals[i / 48];
        for (p.room = 15; p.room <= 17; p.room++) {
            p.wrong_tag = kind == OPENING && p.total != 17; /* the tag is that of 17 bytes */
            try(p, 17);
        }
    }
}

/* Real lengths: a label, a piece and a message at the limit and one over it. */
static void limits(enum kind kind)
{
    const struct { int holder; size_t iv, label; } starting[] = {{0, 16, LIMIT}, {0, 16, LIMIT + 1}, {1, 16, LIMIT + 1},
        {1, 13, LIMIT + 1}};
    const struct { size_t total, data, room; } rows[] = {{16, LIMIT - 16, LIMIT - 16}, {17, LIMIT - 16, LIMIT - 16}, {17, LIMIT - 16, 0},
        {0, LIMIT + 1, 0}, {LIMIT, 0, 0}, {LIMIT, 1, 0}};
    struct part p;
    for (int i = 0; i < 4; i++) {
        try_start((struct part){.kind = kind, .key = holders[starting[i].holder], .iv = starting[i].iv, .label = starting[i].label});
    }
    for (int i = 0; i < 6; i++) {
        p = on_message(kind, PIECE);
        p.total = rows[i].total;
        p.data = rows[i].data;
        p.room = rows[i].room;
        try(p, p.total);
    }
    p = on_message(kind, END);
    p.total = LIMIT;
    p.room = 16;
    try(p, LIMIT);
    p.wrong_tag = kind == OPENING;
    try(p, LIMIT);
    p.room = 15;
    try(p, LIMIT);
}

void pieces_of_any_size(void)
{
    for (enum kind kind = COUNTING; kind < KINDS; kind++) {
        for (size_t before = 0; before <= 33; before += is_sparse ? 5 : 1) {
            at_place(kind, before);
        }
        not_standing(kind);
        forged_totals(kind);
        forged_counters(kind);
        if (with_limits) {
            limits(kind);
        }
    }
}
