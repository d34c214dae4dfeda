/* The engines side by side, with the same key: what a call leaves on one it leaves on the plain one, which does a block at a time, to the
 * byte. Then messages of which the gates do many blocks at once: up to 64 in groups of sixteen, and from 192 on up to 512; about the
 * lengths where such a batch begins or ends, in every mode and both ways; where a counter comes round inside one; and in pieces whose
 * state is turned from one engine to the next. */
#include "test.h"

#include "journal_model.h"
#include "prepared.h"
#include "random.h"
#include "wrap.h"

#include <string.h>

enum { SHORT = 600, LONG = 40960 + 40, BEHIND = 64, BLOCKS = 3000 };

/* The key on the plain engine, and on the one that is held to it; what they are given, and what they write. */
static struct luossavin_key plain, other;
static uint8_t text[LONG], sealed[LONG + BEHIND], first[LONG + BEHIND], second[LONG + BEHIND];
static size_t lent_now;

/* So many bytes, and some behind them. */
static void lend_both(size_t n)
{
    lent_now = n + BEHIND;
    memset(first, LENT, lent_now);
    memset(second, LENT, lent_now);
}

/* The answers, and all that was lent; nothing was written behind the result. */
static void compare(struct luossavin_answer a, struct luossavin_answer b, const char *what, size_t n)
{
    size_t untouched_from = lent_now;
    check(memcmp(&a, &b, sizeof a) == 0, "its answer on either engine", what, n);
    check(memcmp(first, second, lent_now) == 0, "its bytes on either engine", what, n);
    while (untouched_from > 0 && second[untouched_from - 1] == LENT) {
        untouched_from--;
    }
    check(untouched_from <= a.length, "it writes behind its result", what, n);
}

/* Enough blocks that every entry of every table is looked up many times over: each takes 128. */
static void blocks(void)
{
    for (size_t i = 0; i < BLOCKS; i++) {
        uint8_t block[16];
        draw_bytes(block, 16);
        lend_both(16);
        compare(luossavin_block_encrypt(plain, block, 16, first, 16), luossavin_block_encrypt(other, block, 16, second, 16),
            "a block, encrypted", i);
        compare(luossavin_block_decrypt(plain, block, 16, first, 16), luossavin_block_decrypt(other, block, 16, second, 16),
            "a block, decrypted", i);
    }
}

/* Every mode and one that is none, into enough room and into little, under every length of IV. */
static void messages(size_t n)
{
    for (uint32_t mode = 0; mode <= 5; mode++) {
        size_t iv_len = n % 5 == 0 ? 12 : n % 7 == 0 ? 13 : 16, room = n % 11 == 0 ? n / 2 : n + 16;
        lend_both(n + 16);
        compare(luossavin_encrypt(mode, plain, label, sizeof label, text, n, iv, iv_len, first, room),
            luossavin_encrypt(mode, other, label, sizeof label, text, n, iv, iv_len, second, room), "encryption", n);
        memcpy(text, first, n);
        lend_both(n + 16);
        compare(luossavin_decrypt(mode, plain, label, sizeof label, text, n, iv, iv_len, first, room),
            luossavin_decrypt(mode, other, label, sizeof label, text, n, iv, iv_len, second, room), "decryption", n);
    }
}

static void range(size_t offset, size_t n)
{
    lend_both(n);
    compare(luossavin_ctr_range(plain, false, iv, 16, offset, text, n, first, n),
        luossavin_ctr_range(other, false, iv, 16, offset, text, n, second, n), "a range", n);
}

static void by_plan(size_t n)
{
    struct luossavin_plan plan = luossavin_plan_make(n, 5).plan;
    lend_both(n);
    compare(luossavin_ctr_by_plan(plain, true, iv, 16, plan, text, n, first, n),
        luossavin_ctr_by_plan(other, true, iv, 16, plan, text, n, second, n), "work by a plan", n);
}

/* A file that opens under its second label. */
static void questions(size_t n)
{
    const uint8_t labels[] = {1, 2, 3, 4, 5, 6, 7};
    const size_t lengths[] = {3, 4};
    struct luossavin_found a, b;
    prepared(luossavin_encrypt(GCM, other, labels + 3, 4, text, n, iv, 16, sealed, n + 16));
    a = luossavin_which(plain, sealed, n + 16, iv, 16, labels, sizeof labels, lengths, 2);
    b = luossavin_which(other, sealed, n + 16, iv, 16, labels, sizeof labels, lengths, 2);
    check(a.found == 1 && a.place == 1, "it is found", "which, on the plain engine", n);
    check(difference_found(b, a) == NULL, "its answer on either engine", "which", n);
}

/* A journal that was recorded on one engine, replayed on the other. */
static void journal(void)
{
    static uint8_t file[20000];
    struct luossavin_keys keys = {.count = 1, .keys = {plain}};
    struct luossavin_replayed a, b;
    size_t size = 0;
    for (size_t n = 0; n < 20; n++) {
        struct entry e = {.direction = n % 4 == 3, .mode = (uint8_t)(n % 6), .key = plain.number, .label = {label, sizeof label},
            .data = {text, 16 * n}, .iv = {iv, 16}, .room = (uint32_t)(16 * n + 16)};
        e = answered_on(e, plain);
        size += write_entry(&e, file + size);
    }
    a = luossavin_replay(keys, file, size);
    keys.keys[0] = other;
    b = luossavin_replay(keys, file, size);
    check(a.records == 20 && a.differs == 0, "it agrees", "a journal, on the plain engine", size);
    check(difference_replayed(&b, &a) == NULL, "its report on either engine", "a journal", size);
}

/* A host can put any byte into a record. */
void engines(void)
{
    static const uint8_t others[] = {CHOSEN, TABLES, GATES, 4, 255};
    plain = luossavin_key_engine(luossavin_key_new(key_bytes, 16, NUMBER), PLAIN);
    for (size_t i = 0; i < sizeof others / sizeof *others; i++) {
        other = plain;
        other.engine = others[i];
        blocks();
        draw_bytes(text, SHORT);
        for (size_t n = 0; n <= SHORT; n += n < 100 ? 1 : 53) {
            messages(n);
            range(3 * n, n);
            by_plan(n);
            questions(n);
        }
        journal();
    }
}

/* Long messages. */

/* There, on either engine, and back, each on what the other made. */
static void both_ways(uint32_t mode, const uint8_t *under, size_t iv_len, size_t n)
{
    struct luossavin_answer a, b;
    lend_both(n + 16);
    a = luossavin_encrypt(mode, plain, label, sizeof label, text, n, under, iv_len, first, n + 16);
    b = luossavin_encrypt(mode, other, label, sizeof label, text, n, under, iv_len, second, n + 16);
    check(a.number == 0, "it is encrypted, long", "mode", mode);
    compare(a, b, "encryption, long", n);
    memcpy(sealed, second, a.length);
    lend_both(a.length);
    a = luossavin_decrypt(mode, plain, label, sizeof label, sealed, a.length, under, iv_len, first, a.length);
    b = luossavin_decrypt(mode, other, label, sizeof label, sealed, b.length, under, iv_len, second, b.length);
    check(a.number == 0 && a.length == n && memcmp(first, text, n) == 0, "it comes back, long", "mode", mode);
    compare(a, b, "decryption, long", n);
}

/* A message that is refused at its very end leaves all as it was. */
static void refused_long(size_t n)
{
    lend_both(n);
    prepared(luossavin_encrypt(GCM, plain, label, sizeof label, text, n, iv, 16, sealed, n + 16));
    sealed[n / 2] ^= 1;
    compare(luossavin_decrypt(GCM, plain, label, sizeof label, sealed, n + 16, iv, 16, first, n),
        luossavin_decrypt(GCM, other, label, sizeof label, sealed, n + 16, iv, 16, second, n), "a damaged text", n);
}

static void about(size_t edge)
{
    static const int offsets[] = {-17, -16, -1, 0, 1, 16};
    for (size_t i = 0; i < sizeof offsets / sizeof *offsets; i++) {
        size_t n = edge + (size_t)offsets[i];
        for (uint32_t mode = CFB; mode <= GCM; mode++) {
            both_ways(mode, iv, 16, n);
        }
        range(16 * i + i, n);
    }
    both_ways(GCM, iv, 12, edge + 5);
    refused_long(edge);
}

/* All ones stands so many blocks behind the start. */
static void round_inside(uint32_t before, size_t n)
{
    uint8_t near[16];
    iv_near_ctr_wrap(near, before);
    both_ways(CTR, near, 16, n);
    memset(near, 0x5a, sizeof near);
    iv_near_gcm_wrap(plain, near, before);
    both_ways(GCM, near, 16, n);
}

/* In the first group of sixteen, at an edge, in the last and behind it; and in the first column of a large batch, at an edge, in the last,
 * and in the next batch. */
static void rounds_inside(void)
{
    static const uint32_t in_groups[] = {0, 1, 12, 13, 14, 15, 16, 17, 29, 30, 31, 32, 47, 48, 62, 63, 64, 65};
    static const uint32_t in_batches[] = {0, 1, 62, 63, 64, 300, 510, 511, 512, 700};
    for (size_t i = 0; i < sizeof in_groups / sizeof *in_groups; i++) {
        round_inside(in_groups[i], 16 * in_groups[i] + 21);
        round_inside(in_groups[i], 1100);
    }
    for (size_t i = 0; i < sizeof in_batches / sizeof *in_batches; i++) {
        round_inside(in_batches[i], 16384 + 7);
    }
}

/* A message in pieces, of which each is on the next engine: the state is a value, and its mark is not seen. */
static void turned_about(enum kind kind, size_t n, size_t by)
{
    const struct given g = {.key = plain, .iv = iv, .label = label, .iv_len = 16, .label_len = sizeof label};
    struct state s;
    struct luossavin_answer a = call_start(kind, &s, &g);
    size_t tag = kind == SEALING ? 16 : 0;
    lend_both(n + tag);
    for (size_t i = 0; a.number == 0 && i < n; i += by) {
        *engine_of(&s) = (uint8_t)(i / by % ENGINES);
        a = call_piece(&s, text + i, n - i < by ? n - i : by, first + i, n - i);
    }
    a = call_end(&s, first + n, tag);
    check(a.number == 0, "its end", "pieces on every engine", n);
    prepared(luossavin_encrypt(kind == SEALING ? GCM : CTR, plain, label, sizeof label, text, n, iv, 16, second, n + tag));
    check(memcmp(first, second, lent_now) == 0, "its bytes", "pieces on every engine", n);
}

void long_messages(void)
{
    /* groups of 16, 32, 48 and 64 blocks; in Gcm two blocks of the first group are not the text's */
    static const size_t edges[] = {64, 224, 256, 480, 512, 736, 768, 992, 1024, 1536, 2048, 3072, 4096, 6144, 8192, 9216, 16384, 40960};
    static const uint32_t batched[] = {GATES, CHOSEN};
    plain = luossavin_key_engine(luossavin_key_new(key_bytes, 16, NUMBER), PLAIN);
    draw_bytes(text, sizeof text);
    for (int k = 0; k < 2; k++) {
        other = luossavin_key_engine(plain, batched[k]);
        for (size_t i = 0; i < sizeof edges / sizeof *edges; i++) {
            about(edges[i]);
        }
        rounds_inside();
    }
    for (size_t n = 0; n <= SHORT; n += n < 70 ? 1 : 53) {
        turned_about(COUNTING, n, 1 + n / 9);
        turned_about(SEALING, n, 1 + n / 9);
    }
    for (size_t by = 1000; by <= 9000; by += 1333) {
        turned_about(COUNTING, 40000, by);
        turned_about(SEALING, 40000, by);
    }
}
