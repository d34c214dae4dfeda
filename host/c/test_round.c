/* Whether a counter came round: what single calls and messages in pieces say of texts about the place where it does,
 * by lengths that are written down here; texts of many blocks; IVs under which none does; the bytes on the other side;
 * another tag; and J0 by two ways. Refusals of such texts, in pieces too, are among those of any size. */
#include "test.h"

#include "prepared.h"
#include "wrap.h"

#include <stdio.h>
#include <string.h>

enum { MOST = 64, NEAR = 3 };

/* An IV with so many counters before the one that is all ones; in Gcm, that of J0 among them. */
static void iv_near(uint32_t mode, uint32_t before, uint8_t under[16])
{
    memcpy(under, iv, 16);
    if (mode == CTR) {
        iv_near_ctr_wrap(under, before);
    } else {
        iv_near_gcm_wrap(key, under, before);
    }
}

/* Whether a call is done with that length, and says that. */
static int says(struct luossavin_answer a, size_t length, int yes)
{
    int as_due = a.came_round == yes;
    a.came_round = 0;
    return as_due && done(a, length);
}

/* A text of n bytes, encrypted, and decrypted under the retired key. */
static void in_one(uint32_t mode, const uint8_t *under, size_t iv_len, size_t n, int yes, const char *what)
{
    const struct whole w = {.mode = mode, .data = n};
    uint8_t *there = lend_again(one), *back = lend_again(two);
    struct luossavin_answer a = luossavin_encrypt(mode, key, label, sizeof label, rfc_text, n, under, iv_len, there, ROOM);
    check(says(a, room_needed(&w), yes) && untouched(one, a.length), what, "encryption", n);
    a = luossavin_decrypt(mode, luossavin_key_retire(key), label, sizeof label, there, a.length, under, iv_len, back, ROOM);
    check(says(a, n, yes) && untouched(two, n), what, "decryption", n);
    check(memcmp(back, rfc_text, n) == 0, what, "its text", n);
}

/* Ctr, or sealing and opening, in pieces of `by` bytes: the end says it, and not where the tag is another. */
static void in_pieces(uint32_t mode, const uint8_t *under, size_t iv_len, size_t n, size_t by, int yes)
{
    const struct given g = {key, by % 2 == 0, under, label, iv_len, sizeof label};
    const struct luossavin_answer no = {.number = 4, .key = NUMBER};
    enum kind kind = mode == CTR ? COUNTING : SEALING;
    uint8_t sealed[ROOM];
    struct state s;
    struct luossavin_answer a = call_start(kind, &s, &g);
    a = go_by(by, a, &s, rfc_text, n, sealed, ROOM);
    check(says(a, kind == SEALING ? 16 : 0, yes), "what the end says", kind_names[kind], n);
    if (kind == SEALING) {
        a = call_start(OPENING, &s, &g);
        check(says(go_by(by, a, &s, sealed, n, NULL, 0), 0, yes), "what the end says", kind_names[OPENING], n);
        sealed[n + by % 16] ^= 1;
        a = call_start(OPENING, &s, &g);
        a = go_by(by, a, &s, sealed, n, NULL, 0);
        check(difference(a, no) == NULL, "another tag says no", kind_names[OPENING], n);
    }
}

/* A text of every length under IVs near the place, whole and in pieces of every length. */
static void near(void)
{
    static const uint32_t modes[] = {CTR, GCM};
    static const size_t longest[][NEAR] = {{16, 32, 48}, {0, 16, 32}}; /* that say no */
    uint8_t under[16];
    for (int m = 0; m < 2; m++) {
        for (uint32_t before = 0; before < NEAR; before++) {
            iv_near(modes[m], before, under);
            for (size_t n = 0; n <= MOST; n++) {
                int yes = n > longest[m][before];
                in_one(modes[m], under, 16, n, yes, m ? "Gcm near the round" : "Ctr near the round");
                for (size_t by = 1; by <= MOST; by++) {
                    in_pieces(modes[m], under, 16, n, by, yes);
                }
            }
        }
    }
}

/* Texts of so many blocks, of which the last counter is the one that has come round, and then all ones: all of the
 * count is added, and not its last byte or two alone. */
static void many_blocks(uint32_t mode, uint32_t blocks)
{
    static uint8_t sealed[16 * 65537 + 16];
    uint8_t under[16];
    const struct given g = {key, false, under, label, 16, sizeof label};
    size_t n = 16 * blocks, tag = mode == GCM ? 16 : 0;
    enum kind kind = mode == CTR ? COUNTING : SEALING;
    struct state s;
    for (int yes = 0; yes <= 1; yes++) {
        struct luossavin_answer a;
        iv_near(mode, blocks - (mode == CTR) - (uint32_t)yes, under);
        a = luossavin_encrypt(mode, key, label, sizeof label, too_long, n, under, 16, sealed, sizeof sealed);
        check(says(a, n + tag, yes), "many blocks", kind_names[kind], blocks);
        a = call_start(kind, &s, &g);
        a = go_by(4000, a, &s, too_long, n, sealed, sizeof sealed);
        check(says(a, tag, yes), "many blocks in pieces", kind_names[kind], blocks);
        if (kind == SEALING) {
            a = call_start(OPENING, &s, &g);
            a = go_by(4000, a, &s, sealed, n, NULL, 0);
            check(says(a, 0, yes), "many blocks in pieces", kind_names[OPENING], blocks);
        }
    }
}

/* Counters that are all ones but for one bit, which is none of the last two. Ctr counts in all 128, and does not come
 * round so soon; Gcm counts in the last 32, and comes round at once where the bit is before these. */
static void one_bit(void)
{
    static const size_t lengths[] = {0, 1, 16, 17, 63, 64};
    for (int bit = 0; bit < 126; bit++) {
        uint8_t counter[16], under[16];
        memset(counter, 0xff, 16);
        counter[bit / 8] ^= 0x80 >> bit % 8;
        memcpy(under, counter, 16);
        iv_for_j0(key, under);
        for (int i = 0; i < 6; i++) {
            in_one(CTR, counter, 16, lengths[i], 0, "Ctr, all ones but one bit");
            in_one(GCM, under, 16, lengths[i], bit < 96 && i > 0, "Gcm, all ones but one bit");
        }
    }
}

/* Under zeros; in Gcm under 12 bytes, whatever they are; in the modes that have no counter, under all ones. */
static void never(void)
{
    static const uint8_t zeros[16];
    uint8_t ones[16], zero_j0[16] = {0};
    memset(ones, 0xff, 16);
    iv_for_j0(key, zero_j0);
    for (size_t n = 0; n <= MOST; n++) {
        in_one(CTR, zeros, 16, n, 0, "Ctr under zeros");
        in_one(GCM, zero_j0, 16, n, 0, "Gcm with a J0 of zeros");
        in_one(GCM, ones, 12, n, 0, "Gcm under 12 bytes");
        in_one(GCM, zeros, 12, n, 0, "Gcm under 12 bytes");
        in_pieces(GCM, ones, 12, n, 1 + n % 20, 0);
        in_one(CFB, ones, 16, n, 0, "Cfb under all ones");
        in_one(OFB, ones, 16, n, 0, "Ofb under all ones");
        in_one(CBC, ones, 16, n, 0, "Cbc under all ones");
    }
}

/* The bytes behind the round: the key stream there is the block of the counter that has come round to zero. */
static void behind(void)
{
    uint8_t under[16], out[ROOM], counter[16] = {0}, stream[16];
    int same = 1;
    iv_near(CTR, 0, under);
    prepared(luossavin_encrypt(CTR, key, NULL, 0, rfc_text, 32, under, 16, out, ROOM));
    prepared(luossavin_block_encrypt(key, counter, 16, stream, 16));
    for (int i = 0; i < 16; i++) {
        same &= out[16 + i] == (rfc_text[16 + i] ^ stream[i]);
    }
    check(same, "the bytes behind the round", "Ctr", 32);
    iv_near(GCM, 0, under);
    prepared(luossavin_encrypt(GCM, key, NULL, 0, rfc_text, 16, under, 16, out, ROOM));
    memcpy(counter, iv, 12);
    prepared(luossavin_block_encrypt(key, counter, 16, stream, 16));
    for (int i = 0; i < 16; i++) {
        same &= out[i] == (rfc_text[i] ^ stream[i]);
    }
    check(same, "the bytes behind the round", "Gcm", 16);
}

/* Each bit of a sealed message that comes round is another once, and its label, which is 4. */
static void wrong_tags(void)
{
    uint8_t under[16], sealed[ROOM], *out = lend_again(one);
    iv_near(GCM, 0, under);
    check(says(luossavin_encrypt(GCM, key, label, sizeof label, rfc_text, 48, under, 16, sealed, ROOM), 64, 1),
        "a message that comes round", "Gcm", 48);
    for (size_t bit = 0; bit < 8 * 64; bit++) {
        sealed[bit / 8] ^= (uint8_t)(1 << bit % 8);
        refused(luossavin_decrypt(GCM, key, label, sizeof label, sealed, 64, under, 16, out, ROOM), 4, "coming round, and another bit");
        sealed[bit / 8] ^= (uint8_t)(1 << bit % 8);
    }
    refused(luossavin_decrypt(GCM, key, label, 5, sealed, 64, under, 16, out, ROOM), 4, "coming round, and another label");
}

/* Single blocks of all ones. */
static void blocks_of_ones(void)
{
    uint8_t ones[16], out[16];
    memset(ones, 0xff, 16);
    check(done(luossavin_block_encrypt(key, ones, 16, out, 16), 16), "encryption says no", "a block of all ones", 16);
    check(done(luossavin_block_decrypt(key, ones, 16, out, 16), 16), "decryption says no", "a block of all ones", 16);
}

/* J0 as the tests work it out is what the tag of nothing, under no label, decrypts to: that tag is J0 encrypted. */
static void j0_by_two_ways(void)
{
    uint8_t under[16], tag[16], block[16], from[16];
    for (uint32_t i = 0; i < 200; i++) {
        size_t iv_len = i % 4 ? 16 : 12;
        for (int k = 0; k < 16; k++) {
            under[k] = (uint8_t)(i * 37 + k * 101 + i * k);
        }
        if (i % 2) {
            iv_near_gcm_wrap(key, under, i);
        }
        prepared(luossavin_encrypt(GCM, key, NULL, 0, NULL, 0, under, iv_len, tag, 16));
        prepared(luossavin_block_decrypt(key, tag, 16, block, 16));
        count_from(GCM, key, under, iv_len, from);
        check(memcmp(block, from, 16) == 0, "the tag of nothing", "J0 by two ways", i);
        check(i % 2 == 0 || (from[12] == 0xff && from[15] == 255 - i % 256), "the wanted one", "J0 by two ways", i);
    }
}

void rounds(void)
{
    near();
    for (uint32_t blocks = 255; blocks <= 65537; blocks += blocks == 257 ? 65535 - 257 : 1) {
        many_blocks(CTR, blocks);
        many_blocks(GCM, blocks);
    }
    one_bit();
    never();
    behind();
    wrong_tags();
    blocks_of_ones();
    j0_by_two_ways();
}
