/* Hashes of halves: every kind of value and of count against a slow model (hash_model.c), and halves of
 * real messages, whose hashes joined must make the tag that the single call makes. */
#include "test.h"

#include "hash_model.h"
#include "prepared.h"
#include "random.h"

#include <stdio.h>
#include <string.h>
#include <time.h>

enum { KINDS_OF_H = 13, TEXT = 100, LABEL = 20 };

static struct luossavin_hash value_of(element e)
{
    return (struct luossavin_hash){(uint64_t)(e >> 64), (uint64_t)e};
}

/* What runs. */
static struct {
    const char *call;
    uint64_t count;
    element h;
} now;

static void describe_hash(char *words, size_t room)
{
    snprintf(words, room, "%s, %llu bytes or blocks, H %016llx%016llx", now.call, (unsigned long long)now.count,
        (unsigned long long)(now.h >> 64), (unsigned long long)now.h);
}

static int is(struct luossavin_hash got, element due)
{
    return judged(0, got.high == (uint64_t)(due >> 64) && got.low == (uint64_t)due ? NULL : "its value");
}

static element drawn(void)
{
    return (element)draw() << 64 | draw();
}

/* Nothing, the one, the number 1, x, every bit, one half alone, and some that are drawn. */
static element kind_of_h(size_t i)
{
    const element kinds[] = {0, ONE, 1, ONE >> 1, ~(element)0, ONE - 1, (element)UINT64_MAX, ~(element)UINT64_MAX,
        (element)0x66e94bd4ef8a2c3b << 64 | 0x884cfa59ca342b2e};
    return i < sizeof kinds / sizeof kinds[0] ? kinds[i] : drawn();
}

static void blocks_of(element h, size_t n)
{
    struct buffer bytes = lend_input(n, n);
    shut(bytes);
    now.call = "blocks";
    now.count = n;
    now.h = h;
    describe = describe_hash;
    is(luossavin_hash_blocks(value_of(h), lent(bytes), n), hash_of(h, bytes.bytes, n));
    kept(bytes);
    give_back(bytes);
}

static void joins(element h, element first, element second, uint64_t n, element due)
{
    now.call = "join";
    now.count = n;
    now.h = h;
    describe = describe_hash;
    is(luossavin_hash_join(value_of(h), value_of(first), value_of(second), n), due);
}

/* Every length up to some blocks; about those from which on eight hashes are interleaved and then sixteen, with every rest of blocks
 * behind their sets; and a long one. */
static void blocks(element h)
{
    static const size_t edges[] = {256, 1536};
    static const int offsets[] = {-17, -16, -1, 0, 1, 15, 16};
    for (size_t n = 0; n <= TEXT; n++) {
        blocks_of(h, n);
    }
    for (size_t i = 0; i < sizeof edges / sizeof *edges; i++) {
        for (size_t k = 0; k < sizeof offsets / sizeof *offsets; k++) {
            blocks_of(h, edges[i] + (size_t)offsets[k]);
        }
        for (size_t rest = 0; rest <= 17; rest++) {
            blocks_of(h, edges[i] + 16 * rest);
            blocks_of(h, edges[i] + 16 * rest + 5);
        }
    }
    blocks_of(h, 4095);
    blocks_of(h, 5000);
}

/* Small counts by as many products. The largest by squares: h times it is h to the 2^64, and so for others. */
static void counts(element h)
{
    element first = drawn(), second = drawn();
    struct luossavin_hash got;
    for (uint64_t n = 0; n <= 70; n++) {
        joins(h, first, second, n, product(first, power_by_products(h, n)) ^ second);
    }
    for (unsigned bit = 0; bit < 64; bit++) {
        element power = power_by_squares(h, bit);
        joins(h, first, second, (uint64_t)1 << bit, product(first, power) ^ second);
        got = luossavin_hash_join(value_of(h), value_of(ONE), value_of(0), ((uint64_t)1 << bit) - 1);
        check(product(((element)got.high << 64) | got.low, h) == power, "join", "its value below a power of two", bit);
        for (size_t i = 0; i < KINDS_OF_H; i++) {
            first = kind_of_h(i);
            second = kind_of_h(KINDS_OF_H - 1 - i);
            joins(h, first, second, (uint64_t)1 << bit, product(first, power) ^ second);
        }
    }
    got = luossavin_hash_join(value_of(h), value_of(first), value_of(0), UINT64_MAX);
    check(product(((element)got.high << 64) | got.low, h) == product(first, power_by_squares(h, 64)), "join",
        "its value at the largest count", 64);
}

/* Squarings, and not a product for each block: the largest count is done within a second, by far. */
static void in_no_time(void)
{
    clock_t start = clock();
    struct luossavin_hash joined = luossavin_hash_join(value_of(drawn()), value_of(drawn()), value_of(drawn()), UINT64_MAX);
    (void)joined;
    check(clock() - start < CLOCKS_PER_SEC, "join", "a second for the largest count", 0);
}

/* What the header does with a message whose ciphertext is in two halves. */

static struct luossavin_hash load(const uint8_t bytes[16])
{
    return value_of(element_of(bytes));
}

static void store(struct luossavin_hash e, uint8_t bytes[16])
{
    put_element((element)e.high << 64 | e.low, bytes);
}

static void put_lengths(uint64_t first, uint64_t second, uint8_t bytes[16])
{
    put_element((element)first << 64 | second, bytes);
}

static struct luossavin_hash behind(struct luossavin_hash h, struct luossavin_hash before, const uint8_t *bytes, size_t n)
{
    return luossavin_hash_join(h, before, luossavin_hash_blocks(h, bytes, n), n / 16 + (n % 16 != 0));
}

/* The tag of label and ciphertext, of which the first `cut` bytes are one half. */
static void tag_of_halves(size_t iv_len, const uint8_t *name, size_t name_len, const uint8_t *text, size_t n, size_t cut, uint8_t tag[16])
{
    uint8_t block[32] = {0}, mask[16], lengths[16];
    prepared(luossavin_block_encrypt(key, block, 16, mask, 16));
    struct luossavin_hash h = load(mask);
    memcpy(block, iv, iv_len);
    if (iv_len == 12) {
        block[15] = 1;
    } else {
        put_lengths(0, 128, block + 16);
        store(luossavin_hash_blocks(h, block, 32), block);
    }
    prepared(luossavin_block_encrypt(key, block, 16, mask, 16));
    put_lengths(8 * (uint64_t)name_len, 8 * (uint64_t)n, lengths);
    struct luossavin_hash y = luossavin_hash_blocks(h, name, name_len);
    y = behind(h, y, text, cut);
    y = behind(h, y, text + cut, n - cut);
    y = behind(h, y, lengths, 16);
    store(y, tag);
    for (int i = 0; i < 16; i++) {
        tag[i] ^= mask[i];
    }
}

/* A message sealed, and cut everywhere: at a block's end, or where nothing is behind the cut, the tag is the single
 * call's, and inside a block it is another. */
static void cut_message(size_t iv_len, size_t name_len, size_t n)
{
    uint8_t text[TEXT], sealed[TEXT + 16], name[LABEL], tag[16];
    draw_bytes(text, n);
    draw_bytes(name, name_len);
    struct luossavin_answer a = luossavin_encrypt(4, key, name, name_len, text, n, iv, iv_len, sealed, sizeof sealed);
    check(done(a, n + 16), "halves", "the message is sealed", n);
    for (size_t cut = 0; cut <= n; cut++) {
        tag_of_halves(iv_len, name, name_len, sealed, n, cut, tag);
        int same = memcmp(tag, sealed + n, 16) == 0;
        if (cut % 16 == 0 || cut == n) {
            check(same, "halves", "the tag of both", cut);
        } else {
            check(!same, "halves", "no tag for a cut inside a block", cut);
        }
    }
}

/* Parts joined in either grouping, or a part of nothing between them, are the same. */
static void grouped(void)
{
    uint8_t bytes[TEXT];
    struct luossavin_hash h = value_of(drawn());
    draw_bytes(bytes, sizeof bytes);
    for (size_t a = 0; a <= 96; a += 16) {
        for (size_t b = a; b <= 96; b += 16) {
            struct luossavin_hash first = luossavin_hash_blocks(h, bytes, a);
            struct luossavin_hash from_left = behind(h, behind(h, first, bytes + a, b - a), bytes + b, TEXT - b);
            struct luossavin_hash back = behind(h, luossavin_hash_blocks(h, bytes + a, b - a), bytes + b, TEXT - b);
            struct luossavin_hash from_right = luossavin_hash_join(h, first, back, (TEXT - a + 15) / 16);
            struct luossavin_hash whole = luossavin_hash_blocks(h, bytes, TEXT);
            check(memcmp(&from_left, &whole, 16) == 0, "parts", "joined from the left", a);
            check(memcmp(&from_right, &whole, 16) == 0, "parts", "joined from the right", a);
        }
    }
}

void halves(void)
{
    seed = 20261116;
    for (size_t i = 0; i < KINDS_OF_H; i++) {
        element h = kind_of_h(i);
        blocks(h);
        counts(h);
    }
    in_no_time();
    for (size_t n = 0; n <= TEXT; n += is_sparse ? 7 : 1) {
        for (size_t name_len = 0; name_len <= LABEL; name_len += 5) {
            cut_message(12, name_len, n);
            cut_message(16, name_len, n);
        }
    }
    grouped();
}
