/* Keys: setting one up, retiring it, giving it an engine, with every value that a record may hold. */
#include "test.h"

#include <stdio.h>
#include <string.h>

/* What runs: a key that is set up, or a record that is retired or given an engine. */
enum does { SETS_UP, RETIRES, MARKS };
static struct {
    enum does does;
    size_t bytes;
    uint32_t number;
    struct holder fields;
} now;

static void describe_key(char *words, size_t room)
{
    static const char *const does[] = {"a key that is set up", "a record that is retired", "a record that is given an engine"};
    snprintf(words, room, "%s: %zu bytes, number or engine %u, fields %u, %u, %u", does[now.does], now.bytes, now.number, now.fields.answer,
        now.fields.number, now.fields.retired);
}

static void runs(enum does does, size_t bytes, uint32_t number, struct holder fields)
{
    now.does = does;
    now.bytes = bytes;
    now.number = number;
    now.fields = fields;
    describe = describe_key;
}

/* By hand. */

static void example(void)
{
    static const uint32_t round_keys[32] = {0xf12186f9, 0x41662b61, 0x5a6ab19a, 0x7ba92077, 0x367360f4, 0x776a0c61,
        0xb6bb89b3, 0x24763151, 0xa520307c, 0xb7584dbd, 0xc30753ed, 0x7ee55b57, 0x6988608c, 0x30d895b7, 0x44ba14af,
        0x104495a1, 0xd120b428, 0x73b55fa3, 0xcc874966, 0x92244439, 0xe89e641f, 0x98ca015a, 0xc7159060, 0x99e1fd2e,
        0xb79bd80c, 0x1d2115b0, 0x0e228aeb, 0xf1780c81, 0x428d3654, 0x62293496, 0x01cf72e5, 0x9124a012};
    struct luossavin_key k = luossavin_key_new(rfc_key, 16, NUMBER);
    check(memcmp(k.round_keys, round_keys, sizeof round_keys) == 0, "the round keys", "GB/T 32907's example 1", 32);
}

static void retiring(void)
{
    struct luossavin_key before = key, retired = luossavin_key_retire(key), anew = luossavin_key_new(key_bytes, 16, NUMBER);
    check(retired.retired == 1 && retired.answer == 0 && retired.number == NUMBER, "its fields", "a retired key", retired.number);
    check(same_key(&key, &before), "the record that it was made from", "a retired key", 0);
    check(anew.retired == 0, "it is not retired", "a record set up anew", 0);
}

/* What is no key is refused as that by calls, also once it is retired, which leaves it as it was. */
static void no_key(size_t bytes, uint32_t number, uint32_t answer)
{
    struct luossavin_key k = luossavin_key_new(key_bytes, bytes, number), retired = luossavin_key_retire(k);
    uint8_t *out = lend_again(one);
    check(k.answer == answer && same_key(&k, &retired), "it is as it was", "retiring no key", bytes);
    refused(luossavin_encrypt(CFB, k, NULL, 0, rfc_text, 32, iv, 16, out, ROOM), answer, "no key, encryption");
    refused(luossavin_decrypt(OFB, k, NULL, 0, rfc_text, 32, iv, 16, out, ROOM), answer, "no key, decryption");
    refused(luossavin_block_encrypt(k, rfc_text, 16, out, ROOM), answer, "no key, a block encrypted");
    refused(luossavin_block_decrypt(k, rfc_text, 16, out, ROOM), answer, "no key, a block decrypted");
}

void keys(void)
{
    example();
    retiring();
    no_key(15, NUMBER, 1);
    no_key(16, 0, 13);
    /* both are wrong: the key comes first */
    no_key(15, 0, 1);
    no_key(17, 65536, 1);
}

/* Of any size. */

/* The round keys go by the bytes alone: they are those of any other number, in plain memory. Of no key they are 0. */
static void try_set_up(size_t bytes, uint32_t number)
{
    struct buffer lent_key = lend_input(bytes, bytes);
    struct luossavin_key got, due = {0};
    runs(SETS_UP, bytes, number, set_up(bytes, number));
    if (now.fields.answer == 0) {
        due = luossavin_key_new(lent_key.bytes, bytes, number == 1 ? 2 : 1);
    }
    due = holding(due, now.fields);
    shut(lent_key);
    got = luossavin_key_new(lent(lent_key), bytes, number);
    judged(now.fields.answer, same_key(&got, &due) ? NULL : "its record");
    kept(lent_key);
    give_back(lent_key);
}

/* Retired once and twice; neither answers a number, and so they are counted by none. */
static void try_retire(struct holder fields)
{
    struct luossavin_key before = record(fields), due = holding(before, retired(fields)), once, twice;
    runs(RETIRES, 16, fields.number, fields);
    once = luossavin_key_retire(before);
    twice = luossavin_key_retire(once);
    calls += 2;
    holds_now(same_key(&once, &due) && same_key(&twice, &due) ? NULL : "its record");
}

/* The engine alone is another: 1, 2 or 3 where that was asked for, and otherwise 0. */
static void try_engine(struct holder fields, uint32_t engine)
{
    struct luossavin_key before = record(fields), due = before, got;
    runs(MARKS, 16, engine, fields);
    due.engine = engine < ENGINES ? (uint8_t)engine : 0;
    before.engine = (uint8_t)(engine >> 3);
    got = luossavin_key_engine(before, engine);
    calls++;
    holds_now(same_key(&got, &due) ? NULL : "its record");
}

/* A record of these fields, given engines: each of them where its mark is one that others are taken for, and else one. */
static void try_record(struct holder fields)
{
    static const uint32_t engines[] = {0, 1, 2, 3, 4, 255, 256, 257, 258, 259, 65537, 0x1000002, 0x80000000, 0x80000001, 0xffffffff};
    enum { COUNT = sizeof engines / sizeof *engines };
    try_retire(fields);
    for (size_t i = 0; i < COUNT; i++) {
        if (i == fields.retired % COUNT || fields.retired <= 2 || fields.retired == 255) {
            try_engine(fields, engines[i]);
        }
    }
}

void keys_of_any_size(void)
{
    static const uint32_t numbers[] = {0, 1, 2, 255, 256, 65534, 65535, 65536, 65537, 131072, 0x7fffffff, 0x80000000, 0xffff0001,
        0xffffffff};
    static const uint32_t answers[] = {0, 1, 13, 2, 7, 12, 14, 255, 256, 13 << 8, 65536, 0x80000000, 0xffffffff};
    for (size_t i = 0; i < sizeof numbers / sizeof *numbers; i++) {
        for (size_t bytes = 0; bytes <= 40; bytes++) {
            try_set_up(bytes, numbers[i]);
        }
        for (size_t k = 0; k < sizeof answers / sizeof *answers; k++) {
            for (int mark = 0; mark < 256; mark++) {
                try_record((struct holder){answers[k], (uint16_t)numbers[i], (uint8_t)mark});
            }
        }
    }
}
