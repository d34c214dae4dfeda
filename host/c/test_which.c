/* Which of many labels a file opens under: the header's example, found at every place and not at all, empty and equal labels, every
 * refusal with every later one there as well, answers against the single call; and lists, sizes, records and limits of every kind. */
#include "test.h"

#include "prepared.h"

#include <stdio.h>
#include <string.h>

enum { TEXT = 24, SEALED = TEXT + 16 };

/* The candidates of a question, the file, and the IV, whose bytes are lent to a call. */
static uint8_t labels[2 * LIMIT + 4096], file[LIMIT + 16], nonce[32];
static size_t lengths[CANDIDATES + 3];

/* What runs. */
static struct search now;

static void describe_search(char *words, size_t room)
{
    snprintf(words, room, "which label, record %u, %u, %u, iv %zu, file %zu, %zu labels of %zu bytes, %s %zu bytes", now.key.answer,
        now.key.number, now.key.retired, now.iv, now.file, now.count, now.labels_len, now.spoiled ? "spoiled, under" : "sealed under",
        now.under_len);
}

/* A question without candidates, of a file that opens under no label yet. */
static struct search question(size_t iv_len)
{
    return (struct search){.key = sound, .iv = iv_len, .file = SEALED, .labels = labels, .lengths = lengths, .spoiled = 1};
}

/* One candidate more; NULL is what stands in the buffer there. */
static void add(struct search *s, const uint8_t *candidate, size_t length)
{
    if (candidate != NULL) {
        memcpy(labels + s->labels_len, candidate, length);
    }
    s->labels_len += length;
    lengths[s->count++] = length;
}

static void add_editions(struct search *s, uint16_t first, uint16_t last)
{
    for (uint16_t i = first; i <= last; i++) {
        add(s, luossavin_label(7, i).bytes, 6);
    }
}

/* Seals a text as long as the question's file has it, under a label that the file then opens under. */
static void seal_under(struct search *s, const uint8_t *under, size_t length)
{
    prepared(luossavin_encrypt(GCM, key, under, length, too_long, s->file - 16, nonce, s->iv, file, s->file));
    s->under = under;
    s->under_len = length;
    s->spoiled = 0;
}

static struct buffer lend_copy(const void *bytes, size_t length, size_t most)
{
    struct buffer b = lend_input(length, most);
    if (!b.is_kept) {
        memcpy(b.bytes, bytes, length);
    }
    shut(b);
    return b;
}

static int is_copy(struct buffer b, const void *bytes)
{
    return b.is_kept || memcmp(b.bytes, bytes, b.length) == 0;
}

/* The answer is the one that the rules give, and nothing that was lent is changed. Labels of a list that is refused are not read. */
static struct luossavin_found ask(struct search s)
{
    struct luossavin_found due = answer_to_search(&s), got;
    struct buffer lent_labels = lend_copy(labels, s.labels_len, due.answer.number != 0 ? LIMIT / 2 : sizeof labels);
    struct buffer lent_lengths = lend_copy(lengths, s.count * sizeof *lengths, sizeof lengths);
    struct buffer lent_file = lend_copy(file, s.file, LIMIT + 16), lent_iv = lend_copy(nonce, s.iv, sizeof nonce);
    const char *wrong;
    now = s;
    describe = describe_search;
    s.labels = lent(lent_labels);
    s.lengths = (const size_t *)lent(lent_lengths);
    got = call_search(&s, record(s.key), lent(lent_file), lent(lent_iv));
    wrong = difference_found(got, due);
    if (judge(got.answer, due.answer) && holds_now(wrong)) {
        holds_now(is_copy(lent_labels, labels) && is_copy(lent_lengths, lengths) && is_copy(lent_file, file) && is_copy(lent_iv, nonce)
            ? NULL : "it changes an input");
    }
    give_back(lent_labels);
    give_back(lent_lengths);
    give_back(lent_file);
    give_back(lent_iv);
    return got;
}

/* And the single call, with room, answers 4 under every candidate before the one found, and 0 under that. */
static void ask_both(struct search s, const char *what)
{
    struct luossavin_found got = ask(s);
    uint8_t text[ROOM];
    size_t start = 0, tried = got.found ? got.place + 1 : s.count;
    for (size_t i = 0; i < tried; i++) {
        int last = got.found && i == got.place;
        uint32_t number = luossavin_decrypt(GCM, record(s.key), labels + start, lengths[i], file, s.file, nonce, s.iv, text, ROOM).number;
        check(number == (last ? 0 : 4), what, "the single call", i);
        start += last ? 0 : lengths[i];
    }
    check(!got.found || (got.start == start && got.length == lengths[got.place]), what, "its part", got.start);
}

/* Found, and not. */

/* Without the rules: the header's example, and RFC 8998's message. */
static void by_hand(struct luossavin_found f, uint32_t found, uint32_t place, size_t start, size_t length, const char *what)
{
    check(done(f.answer, 0) && f.found == found, "whether it is found", what, f.answer.number);
    check(f.place == place && f.start == start && f.length == length, "where it is found", what, f.start);
}

static void examples(void)
{
    const uint8_t both[12] = {0, 0, 0, 7, 0, 1, 0, 0, 0, 7, 0, 2};
    const size_t sizes[2] = {6, 6}, three_sizes[3] = {19, 20, 6};
    struct search s = question(16);
    uint8_t three[45];
    seal_under(&s, label, sizeof label);
    by_hand(luossavin_which(key, file, SEALED, iv, 16, both, 12, sizes, 2), 1, 1, 6, 6, "the header's example");
    by_hand(luossavin_which(key, file, SEALED, iv, 16, both, 6, sizes, 1), 0, 0, 0, 0, "the header's example, and none");
    memcpy(three, rfc_label, 19);
    memcpy(three + 19, rfc_label, 20);
    memcpy(three + 39, label, 6);
    by_hand(luossavin_which(luossavin_key_new(rfc_key, 16, NUMBER), rfc_sealed, 80, rfc_iv, 12, three, 45, three_sizes, 3), 1, 1, 19, 20,
        "RFC 8998, which label");
}

/* Files sealed under each candidate in turn, and under one that is none of them. */
static void each_place(struct search s, const char *what)
{
    for (size_t i = 0, start = 0; i < s.count; start += lengths[i++]) {
        seal_under(&s, labels + start, lengths[i]);
        ask_both(s, what);
    }
    seal_under(&s, luossavin_label(7, 0).bytes, 6);
    s.spoiled = 1;
    ask_both(s, what);
}

/* Editions; and labels that are the fronts of one text, the empty one first, and last. */
static void places(size_t iv_len)
{
    struct search s;
    for (uint16_t count = 0; count <= CANDIDATES; count = count < 3 ? count + 1 : count + 61) {
        s = question(iv_len);
        add_editions(&s, 1, count);
        each_place(s, "editions");
    }
    for (int shorter = 0; shorter <= 1; shorter++) {
        s = question(iv_len);
        for (size_t n = 0; n < CANDIDATES; n++) {
            add(&s, rfc_text, shorter ? CANDIDATES - 1 - n : n);
        }
        each_place(s, shorter ? "shorter and shorter labels" : "longer and longer labels");
    }
}

/* Of equal labels the first, wherever the others stand; empty ones among them. */
static void equals(void)
{
    struct search s = question(16);
    for (size_t i = 0; i < CANDIDATES; i++) {
        add(&s, luossavin_label(7, (uint16_t)(1 + i % 5 * (i % 3))).bytes, i % 4 ? 6 : 0);
    }
    each_place(s, "labels more than once");
    s = question(12);
    for (size_t i = 0; i < CANDIDATES; i++) {
        add_editions(&s, 2, 2);
    }
    each_place(s, "one label 64 times");
}

/* Nothing but empty labels, with no buffer: found with length 0, which is not none. And no candidates at all. */
static void empties(void)
{
    struct search s = question(16);
    memset(lengths, 0, sizeof lengths);
    for (s.count = 0; s.count <= CANDIDATES + 1; s.count++) {
        seal_under(&s, NULL, 0);
        ask(s);
        seal_under(&s, label, sizeof label);
        ask(s);
    }
    s.count = 0;
    ask(s);
}

/* One buffer with two labels in it, cut everywhere, against files under every front of it. */
static void cuts(void)
{
    for (size_t front = 0; front <= sizeof rfc_label; front++) {
        for (size_t cut = 0; cut <= sizeof rfc_label; cut++) {
            struct search s = question(12);
            add(&s, rfc_label, cut);
            add(&s, rfc_label + cut, sizeof rfc_label - cut);
            seal_under(&s, rfc_label, front);
            ask_both(s, "a buffer cut in two");
        }
    }
}

/* Every length of file up to 56 bytes; whole, and with each byte damaged. */
static void files(size_t iv_len)
{
    struct search s = question(iv_len);
    add_editions(&s, 1, 3);
    for (s.file = 0; s.file < 16; s.file++) {
        ask(s);
    }
    for (; s.file <= TEXT + 32; s.file++) {
        seal_under(&s, luossavin_label(7, 2).bytes, 6);
        s.under = labels + 6;
        ask_both(s, "a file");
        s.spoiled = 1;
        for (size_t i = 0; i < s.file; i++) {
            file[i] ^= 1;
            ask_both(s, "a damaged file");
            file[i] ^= 1;
        }
    }
}

/* A file under another key, or another IV, opens under no candidate. */
static void others(void)
{
    struct luossavin_key other = luossavin_key_new(rfc_key, 16, NUMBER);
    struct search s = question(16);
    add_editions(&s, 1, 3);
    prepared(luossavin_encrypt(GCM, other, label, sizeof label, rfc_text, TEXT, iv, 16, file, SEALED));
    ask_both(s, "another key's file");
    prepared(luossavin_encrypt(GCM, key, label, sizeof label, rfc_text, TEXT, iv, 12, file, SEALED));
    ask_both(s, "a file under a shorter IV");
    prepared(luossavin_encrypt(GCM, key, label, sizeof label, rfc_text, TEXT, iv + 1, 16, file, SEALED));
    ask_both(s, "a file under another IV");
}

/* Refusals. */

/* Lists that are refused for one thing: too many candidates, a byte too few or too many, lengths that would add up
 * if their sum came round, and a buffer without candidates. */
enum { IN_ORDER, TOO_MANY, TOO_FEW_BYTES, TOO_MANY_BYTES, COMES_ROUND, NO_CANDIDATES, WAYS };

static void spoil_list(struct search *s, int way)
{
    if (way == TOO_MANY) {
        while (s->count <= CANDIDATES) {
            add(s, NULL, 0);
        }
    } else if (way == COMES_ROUND) {
        lengths[s->count++] = SIZE_MAX;
        lengths[s->count++] = 1;
    } else if (way == NO_CANDIDATES) {
        s->count = 0;
    } else {
        s->labels_len += way == TOO_MANY_BYTES;
        s->labels_len -= way == TOO_FEW_BYTES;
    }
}

/* The list that is asked of every record, IV and file. */
static struct search listed;

static void on_record(struct holder fields)
{
    static const size_t ivs[] = {12, 16, 0, 13, 17}, sizes[] = {SEALED, 0, 3, 15, LIMIT + 17};
    for (int i = 0; i < 5; i++) {
        for (int j = 0; j < 5; j++) {
            struct search s = listed;
            s.iv = ivs[i];
            s.key = fields;
            if (i < 2 && j == 0) {
                seal_under(&s, label, sizeof label);
            }
            s.file = sizes[j];
            ask(s);
        }
    }
}

/* Every list, also with a label over the limit before and after the one that opens the file. */
static void refusals(void)
{
    for (int way = IN_ORDER; way < WAYS; way++) {
        for (int over = 0; over < 3; over++) {
            listed = question(16);
            add(&listed, NULL, over == 1 ? LIMIT + 1 : 0);
            add_editions(&listed, 1, 3);
            add(&listed, NULL, over == 2 ? LIMIT + 1 : 0);
            spoil_list(&listed, way);
            every_record(on_record);
        }
    }
}

/* Round keys that no key has. */
static void made_up(void)
{
    struct search s = question(16);
    struct luossavin_key before = key;
    add_editions(&s, 1, 3);
    for (uint32_t i = 0; i < 32; i++) {
        key.round_keys[i] = i * 0x9e3779b9;
    }
    seal_under(&s, labels + 12, 6);
    ask_both(s, "round keys that no key has");
    key = before;
}

void which(void)
{
    memcpy(nonce, iv, sizeof iv);
    examples();
    for (size_t iv_len = 12; iv_len <= 16; iv_len += 4) {
        places(iv_len);
        files(iv_len);
    }
    equals();
    empties();
    cuts();
    others();
    refusals();
    made_up();
}

/* Of any size. */

/* A question with so many candidates of one length, under bytes that no two share. */
static struct search same_lengths(size_t count, size_t length)
{
    struct search s = question(16);
    s.file = 37;
    s.count = count;
    s.labels_len = count * length;
    for (size_t i = 0; i < CANDIDATES + 3; i++) {
        lengths[i] = length;
    }
    return s;
}

/* The same with another length in one place; the one that it is made of is not to be asked any more. */
static struct search resized(struct search s, size_t place, size_t length)
{
    s.labels_len += length - lengths[place];
    lengths[place] = length;
    return s;
}

/* The same with a file under the candidate there, where the sizes allow one. */
static struct search sealed_at(struct search s, size_t place)
{
    size_t from = 0;
    for (size_t i = 0; i < place; i++) {
        from += lengths[i];
    }
    if (takes_iv(GCM, s.iv) && s.file >= 16 && s.file <= LIMIT + 16 && lengths[place] <= LIMIT) {
        seal_under(&s, labels + from, lengths[place]);
    }
    return s;
}

/* The same with a buffer of another size, and a file that opens under no label. */
static struct search lent_bytes(struct search s, size_t bytes)
{
    s.labels_len = bytes;
    s.spoiled = 1;
    file[s.file - 1 < sizeof file ? s.file - 1 : 0] ^= 1;
    return s;
}

/* A list that is in order: a file under its first, middle and last candidate, and under none; the buffer a byte
 * shorter and longer. */
static void ask_list(struct search s)
{
    for (size_t i = 0; i < 3 && s.count != 0; i++) {
        ask(sealed_at(s, i == 0 ? 0 : i == 1 ? s.count / 2 : s.count - 1));
    }
    ask(lent_bytes(s, s.labels_len));
    ask(lent_bytes(s, s.labels_len + 1));
    if (s.labels_len != 0) {
        ask(lent_bytes(s, s.labels_len - 1));
    }
}

/* From no candidates to more than may be, of one length and with one that has another. */
static void lists(void)
{
    static const size_t sizes[] = {0, 1, 6, 16, 17};
    for (size_t count = 0; count <= CANDIDATES + 2; count += is_sparse && count < 60 ? 3 : 1) {
        for (int i = 0; i < 2 * 5; i++) {
            struct search s = same_lengths(count, sizes[i / 2]);
            s.iv = i % 2 ? 16 : 12;
            s.key = holders[count % 4];
            ask_list(s);
            if (count > 2) {
                s = resized(s, count / 2, 33);
                ask_list(s);
                ask_list(resized(s, count - 1, 0));
            }
        }
    }
}

/* Sums that come round to what is lent, or would. */
static void wild_sums(void)
{
    static const size_t big[] = {SIZE_MAX, SIZE_MAX - 5, SIZE_MAX / 2 + 1, (size_t)1 << 58};
    static const size_t rounds[][3] = {{SIZE_MAX, 2, 1}, {SIZE_MAX, 1, 0}, {2, SIZE_MAX, 1}, {SIZE_MAX / 2 + 1, SIZE_MAX / 2 + 1, 0},
        {SIZE_MAX, SIZE_MAX, 0}, {6, SIZE_MAX - 5, 0}, {6, SIZE_MAX, 5}};
    for (size_t i = 0; i < sizeof rounds / sizeof *rounds; i++) {
        struct search s = resized(resized(same_lengths(2, 6), 0, rounds[i][0]), 1, rounds[i][1]);
        check(ask(lent_bytes(s, rounds[i][2])).answer.number == 16, "16", "a sum that comes round", i);
    }
    for (int i = 0; i < 4; i++) {
        for (size_t place = 0; place < CANDIDATES; place += 7) {
            struct search s = same_lengths(CANDIDATES, 6);
            size_t before = s.labels_len;
            for (size_t j = 0; j <= place; j++) {
                s = resized(s, j, big[i]);
            }
            /* the sum, come round, where as much can be lent */
            if (s.labels_len < 1000) {
                ask(lent_bytes(s, s.labels_len));
            }
            ask(lent_bytes(s, before));
            ask(lent_bytes(s, 0));
        }
        ask(lent_bytes(resized(resized(same_lengths(2, 6), 0, big[i]), 1, 1 - big[i]), 1));
        ask(lent_bytes(resized(same_lengths(1, 6), 0, big[i]), 1));
    }
    check(ask(lent_bytes(same_lengths(CANDIDATES, (size_t)1 << 58), 0)).answer.number == 16, "16", "64 times 2^58", CANDIDATES);
}

/* Every record, IV and size of file, on lists that are in order and on others. */
static void sizes(void)
{
    for (int i = 0; i < HOLDERS * IVS; i++) {
        for (size_t n = 0; n < 50; n += is_sparse ? 5 : 1) {
            struct search s = same_lengths(3, 6);
            s.key = holders[i / IVS];
            s.iv = iv_lengths[i % IVS];
            s.file = n;
            ask(sealed_at(s, 2));
            ask(lent_bytes(s, s.labels_len));
            s.count = 0;
            ask(s);
            ask(lent_bytes(s, 0));
        }
    }
}

/* One label that is as long as may be, and one over it, before and after one that opens the file, which is short, or
 * as long as may be, or longer. */
static void limits(void)
{
    static const size_t files[] = {37, 15, 0, LIMIT + 17};
    for (size_t at = 0; at < 3; at++) {
        check(ask(sealed_at(resized(same_lengths(3, 6), 1, LIMIT), at)).place == at, "the place", "a long label", at);
    }
    /* a label has its limit, and the buffer has none */
    check(ask(sealed_at(resized(resized(same_lengths(4, 6), 3, LIMIT), 2, LIMIT), 1)).place == 1, "the place", "two long labels", 1);
    for (size_t i = 0; i < 4 * 3; i++) {
        struct search s = sealed_at(resized(same_lengths(3, 6), i % 3, LIMIT + 1), i % 3 == 0);
        s.file = files[i / 3];
        check(ask(s).answer.number == 5, "5", "a label over the limit", i);
        s.iv = 13;
        ask(s);
        s.key = holders[4];
        ask(s);
        s.labels_len--;
        ask(s);
    }
}

static void long_files(void)
{
    struct search s = same_lengths(2, 6);
    s.file = LIMIT + 16;
    ask(sealed_at(s, 1));
    s.iv = 12;
    ask(lent_bytes(sealed_at(s, 1), 12));
    s.file++;
    ask(s);
    ask(lent_bytes(s, 0));
    s.count = 0;
    ask(lent_bytes(s, 0));
}

void which_of_any_size(void)
{
    near_wrap(GCM, nonce);
    for (size_t i = 0; i < sizeof labels; i++) {
        labels[i] = (uint8_t)(i * 167 + i / 256 * 13 + 29);
    }
    lists();
    wild_sums();
    sizes();
    if (!is_sparse) {
        limits();
    }
    if (with_limits) {
        long_files();
    }
}
