/* Editions: the label, sealing, opening, and the question whether a file opens under a job and an edition, each against the rules and the
 * single calls; and the record of a call, against the model of a journal. */
#include "test.h"

#include "journal_model.h"
#include "prepared.h"

#include <stdio.h>
#include <string.h>

enum { JOB = 7, EDITION = 2, TEXT = 40, SEALED = TEXT + 16 };

static void labels(void)
{
    static const uint32_t jobs[] = {0, 1, 7, 255, 256, 4711, 0x01020304, 0x80000000, 0xffffffff};
    static const uint16_t numbers[] = {0, 1, 2, 255, 256, 0x1267, 0x8000, 0xffff};
    for (size_t i = 0; i < sizeof jobs / sizeof *jobs; i++) {
        for (size_t j = 0; j < sizeof numbers / sizeof *numbers; j++) {
            uint32_t job = jobs[i];
            uint16_t edition = numbers[j];
            const uint8_t due[6] = {(uint8_t)(job >> 24), (uint8_t)(job >> 16), (uint8_t)(job >> 8), (uint8_t)job,
                (uint8_t)(edition >> 8), (uint8_t)edition};
            check(memcmp(luossavin_label(job, edition).bytes, due, 6) == 0, "its bytes", "a label", job);
        }
    }
    check(memcmp(luossavin_label(JOB, EDITION).bytes, label, 6) == 0, "the test's own", "a label", JOB);
}

/* Sealing and opening are the single calls under the label of a job and an edition, which are taken from its bytes here. */

static uint32_t job_of(const uint8_t bytes[6])
{
    return (uint32_t)bytes[0] << 24 | (uint32_t)bytes[1] << 16 | (uint32_t)bytes[2] << 8 | bytes[3];
}

static uint16_t edition_of(const uint8_t bytes[6])
{
    return (uint16_t)(bytes[4] << 8 | bytes[5]);
}

static struct luossavin_answer call_edition(const struct whole *w, struct luossavin_key k, const uint8_t *under, const uint8_t *name,
    const uint8_t *data, uint8_t *out)
{
    return (w->direction == ENCRYPT ? luossavin_edition_seal : luossavin_edition_open)(k, job_of(name), edition_of(name), data, w->data,
        under, w->iv, out, w->room);
}

/* The question whether it opens is opening with room, with neither length nor counter. */

static struct whole now;

static void describe_question(char *words, size_t room)
{
    snprintf(words, room, "whether an edition opens, record %u, %u, %u, iv %zu, data %zu, tag %s", now.key.answer, now.key.number,
        now.key.retired, now.iv, now.data, now.wrong_tag ? "wrong" : "right");
}

static void try_question(struct whole w)
{
    struct beside b = lend_beside(GCM, w.iv, sizeof label);
    struct luossavin_answer due;
    struct buffer data;
    w.mode = GCM;
    w.direction = DECRYPT;
    w.label = sizeof label;
    w.room = w.data;
    data = message(&w, b);
    shut(data);
    due = answer_to(&w);
    due.length = 0;
    now = w;
    describe = describe_question;
    judge(luossavin_edition_opens(record(w.key), job_of(b.label.bytes), edition_of(b.label.bytes), lent(data), w.data, lent(b.iv), w.iv),
        due);
    take_back(b);
    give_back(data);
}

/* Each of the three, with a tag that is right and one that is not. */
static void try_each(struct whole w)
{
    w.mode = GCM;
    w.label = sizeof label;
    for (w.wrong_tag = 0; w.wrong_tag <= 1; w.wrong_tag++) {
        for (w.direction = ENCRYPT; w.direction <= DECRYPT; w.direction++) {
            try_whole_by(call_edition, w);
        }
        try_question(w);
    }
}

/* Every size, IV and record, with a tag that is right and one that is not. */
static void on_record(struct holder fields)
{
    static const size_t ivs[] = {0, 11, 12, 13, 16, 17}, sizes[] = {0, 5, 10, 15, 16, 17, 30, 43, SEALED, LIMIT + 17};
    for (size_t i = 0; i < 6 * 10; i++) {
        try_question((struct whole){.key = fields, .iv = ivs[i / 10], .data = sizes[i % 10]});
        try_question((struct whole){.key = fields, .iv = ivs[i / 10], .data = sizes[i % 10], .wrong_tag = 1});
    }
}

/* By hand: it opens under its own edition, and under no other; and not once a bit is another. */
static void one_edition_alone(size_t iv_len)
{
    static uint8_t sealed[SEALED];
    struct luossavin_answer a = luossavin_edition_seal(key, JOB, EDITION, rfc_text, TEXT, iv, iv_len, sealed, SEALED);
    check(done(a, SEALED), "it is sealed", "an edition", iv_len);
    check(done(luossavin_edition_opens(key, JOB, EDITION, sealed, SEALED, iv, iv_len), 0), "it opens", "an edition", iv_len);
    for (uint32_t job = 0; job < 20; job++) {
        for (uint32_t edition = 0; edition < 300; edition += edition < 8 ? 1 : 31) {
            uint32_t due = job == JOB && edition == EDITION ? LUOSSAVIN_DONE : LUOSSAVIN_INVALID_TAG;
            a = luossavin_edition_opens(key, job, (uint16_t)edition, sealed, SEALED, iv, iv_len);
            check(a.number == due && a.length == 0 && a.key == NUMBER, "whether it opens", "a job and an edition", edition);
        }
    }
    for (size_t bit = 0; bit < 8 * SEALED; bit += 3) {
        sealed[bit / 8] ^= (uint8_t)(1 << bit % 8);
        a = luossavin_edition_opens(key, JOB, EDITION, sealed, SEALED, iv, iv_len);
        check(difference(a, (struct luossavin_answer){.number = LUOSSAVIN_INVALID_TAG, .key = NUMBER}) == NULL, "a bit that is another",
            "an edition", bit);
        sealed[bit / 8] ^= (uint8_t)(1 << bit % 8);
    }
    a = luossavin_edition_open(luossavin_key_retire(key), JOB, EDITION, sealed, SEALED, iv, iv_len, lend_again(one), ROOM);
    check(done(a, TEXT) && memcmp(one.bytes, rfc_text, TEXT) == 0, "opening under a retired key", "an edition", TEXT);
    refused(luossavin_edition_seal(luossavin_key_retire(key), JOB, EDITION, rfc_text, TEXT, iv, iv_len, lend_again(one), ROOM), 14,
        "sealing an edition under a retired key");
    refused(luossavin_edition_open(key, JOB, EDITION + 1, sealed, SEALED, iv, iv_len, lend_again(one), ROOM), 4, "opening another edition");
}

/* Records of calls. */

static struct entry recorded;

static void describe_record(char *words, size_t room)
{
    snprintf(words, room, "a record of %zu, %zu, %zu and %zu bytes", recorded.label.length, recorded.data.length, recorded.iv.length,
        recorded.output.length);
}

/* The record of an entry, into so much less room than it needs; what a field has no room for is recorded as the largest that it has. */
static void try_record(struct entry e, uint32_t mode, size_t call_room, uint32_t call_number, size_t short_by)
{
    static uint8_t due[BARE + 3 * PART_LIMIT + OUTPUT_LIMIT];
    struct bytes *parts[] = {&e.label, &e.data, &e.iv, &e.output};
    struct buffer lent_parts[4], out;
    size_t size = BARE, room;
    uint32_t number = short_by > 0 ? LUOSSAVIN_NO_ROOM : LUOSSAVIN_DONE;
    for (int i = 0; i < 4; i++) {
        lent_parts[i] = lend_input(parts[i]->length, LIMIT);
        shut(lent_parts[i]);
        parts[i]->at = lent_parts[i].bytes;
        size += parts[i]->length;
        number = parts[i]->length > (i == 3 ? OUTPUT_LIMIT : PART_LIMIT) ? LUOSSAVIN_PART_TOO_LONG : number;
    }
    e.mode = (uint8_t)(mode > UINT8_MAX ? UINT8_MAX : mode);
    e.number = (uint8_t)(call_number > UINT8_MAX ? UINT8_MAX : call_number);
    e.room = call_room > UINT32_MAX ? UINT32_MAX : (uint32_t)call_room;
    recorded = e;
    describe = describe_record;
    room = short_by > size ? 0 : size - short_by;
    out = lend(number == LUOSSAVIN_PART_TOO_LONG && room > 0 ? 64 : room, LENT);
    size = number == LUOSSAVIN_DONE ? size : 0;
    if (judge(luossavin_record(e.direction == 1, mode, e.key, lent(lent_parts[0]), e.label.length, lent(lent_parts[1]), e.data.length,
            lent(lent_parts[2]), e.iv.length, call_room, call_number, lent(lent_parts[3]), e.output.length, lent(out), out.length),
            (struct luossavin_answer){.number = number, .length = size}) && wrote_only(out, size) && size != 0) {
        holds_now(write_entry(&e, due) == size && memcmp(out.bytes, due, size) == 0 ? NULL : "its bytes are others");
    }
    for (int i = 0; i < 4; i++) {
        kept(lent_parts[i]);
        give_back(lent_parts[i]);
    }
    give_back(out);
}

static void try_lengths(size_t label_len, size_t data, size_t iv_len, size_t output, size_t short_by)
{
    struct entry e = {.direction = 1, .key = NUMBER, .label.length = label_len, .data.length = data, .iv.length = iv_len,
        .output.length = output};
    try_record(e, GCM, 99, 4, short_by);
}

static void records(void)
{
    static const uint32_t numbers[] = {0, 1, 4, 26, 254, 255, 256, 257, 65535, 65536, 0xffffffff};
    static const size_t rooms[] = {0, 1, 40, 0xfffffffe, 0xffffffff, 0x100000000, 0x100000001, SIZE_MAX};
    static const size_t lengths[] = {0, 1, 17, PART_LIMIT, PART_LIMIT + 1, OUTPUT_LIMIT, OUTPUT_LIMIT + 1, LIMIT + 1};
    static const size_t less[] = {0, 1, 2, 27, SIZE_MAX};
    for (size_t i = 0; i < 11 * 8; i++) {
        struct entry e = {.direction = i / 8 % 2, .key = (uint16_t)(i / 8 * 7919), .label.length = i / 8 % 7, .data.length = i % 8,
            .iv.length = 16, .output.length = i / 8};
        try_record(e, numbers[i / 8], rooms[i % 8], numbers[i / 8], 0);
        try_record(e, numbers[i / 8], rooms[i % 8], numbers[i / 8], 1);
    }
    for (size_t i = 0; i < 4 * 8 * 5; i++) {
        size_t n[4] = {3, 5, 16, 0};
        n[i % 4] = lengths[i / 4 % 8];
        try_lengths(n[0], n[1], n[2], n[3], less[i / 32]);
    }
    for (size_t n = 0; n < 40; n += is_sparse ? 7 : 1) {
        try_lengths(n, 39 - n, n % 17, n / 2, 0);
        try_lengths(n, 39 - n, n % 17, n / 2, 1);
    }
}

/* What is recorded by the header's lines is replayed, and agrees. */
static void replayed(void)
{
    static uint8_t journal[4096];
    struct luossavin_keys ring = {.count = 1, .keys = {key}};
    struct luossavin_replayed r;
    uint8_t out[ROOM];
    size_t used = 0, count = 0;
    for (uint32_t mode = 0; mode <= 5; mode++) {
        for (size_t room = 0; room <= ROOM; room += 20) {
            struct luossavin_answer a = luossavin_encrypt(mode, key, label, 6, rfc_text, TEXT, iv, 16, out, room);
            struct luossavin_answer w = luossavin_record(false, mode, NUMBER, label, 6, rfc_text, TEXT, iv, 16, room, a.number, out,
                a.length, journal + used, sizeof journal - used);
            prepared(w);
            used += w.length;
            count++;
        }
    }
    r = luossavin_replay(ring, journal, used);
    check(r.number == 0 && r.records == count && r.differs == 0, "what was recorded agrees", "a replay", r.records);
    check(r.by_answer[7] == 5 && r.by_mode[5] == 5, "and is counted", "a replay", r.by_answer[7]);
    for (int i = NUMBERS; i < LUOSSAVIN_NUMBERS; i++) {
        check(r.by_answer[i] == 0, "numbers to come", "a replay", (size_t)i);
    }
}

void editions(void)
{
    labels();
    one_edition_alone(12);
    one_edition_alone(16);
    every_record(on_record);
    before_wrap = FAR;
    for (size_t room = 0; room <= ROOM; room++) {
        try_each((struct whole){.key = sound, .iv = 16, .data = TEXT, .room = room});
        try_each((struct whole){.key = sound, .iv = 16, .data = SEALED, .room = room});
    }
    before_wrap = 1;
    replayed();
}

void editions_of_any_size(void)
{
    for (int i = 0; i < HOLDERS * IVS; i++) {
        for (size_t data = 0; data < 50; data += is_sparse ? 7 : 1) {
            for (size_t room = 0; room <= 70; room += 35) {
                try_each((struct whole){.key = holders[i / IVS], .iv = iv_lengths[i % IVS], .data = data, .room = room});
            }
        }
    }
    for (size_t data = LIMIT - 1; with_limits && data <= LIMIT + 18; data += data == LIMIT + 1 ? 14 : 1) {
        try_each((struct whole){.key = holders[0], .iv = 12, .data = data, .room = LIMIT + 40});
        try_each((struct whole){.key = holders[1], .iv = 16, .data = data, .room = data - 17});
    }
    records();
}
