/* Holds the library to published vectors, on each of the engines and both ways.
 *
 *   vectors < crates/vectors/data/vectors
 *
 * The file says what is in it: six fields for each vector, in hex, each with its length in front. The block that is encrypted a million times over is left out on the
 * gates, which do many blocks at once: one by one takes too long there. Exit status 1 if a result is another, or nothing was compared; 2 if
 * the list cannot be read.
 */
#include "rules.h"
#include "variant.h"

#include <ctype.h>
#include <stdio.h>
#include <stdlib.h>
#include <string.h>

/* The fields, and the kinds behind those that are modes. */
enum { MOST = 255, KIND = 0, KEY, IV, LABEL, TEXT, RESULT, FIELDS };
enum { BLOCK = 5, MILLION = 6, GHASH = 7 };

struct bytes {
    uint8_t bytes[MOST];
    size_t length;
};

static struct bytes of[FIELDS];
static unsigned compared, differ;

static void unreadable(const char *what)
{
    fprintf(stderr, "vectors: %s\n", what);
    exit(2);
}

static void is_same(const char *kind, const char *what, uint32_t engine, struct luossavin_answer a, const uint8_t *got, const struct bytes *due,
    size_t length)
{
    compared++;
    if (a.number != 0 || a.length != length || memcmp(got, due->bytes, due->length) != 0) {
        differ++;
        printf("differs: %s, %s, on engine %u (answer %u)\n", kind, what, engine, a.number);
    }
}

static void block(struct luossavin_key key, uint32_t engine)
{
    uint8_t out[16];
    struct luossavin_answer a = luossavin_block_encrypt(key, of[TEXT].bytes, of[TEXT].length, out, 16);
    is_same("block", "encrypted", engine, a, out, &of[RESULT], 16);
    a = luossavin_block_decrypt(key, of[RESULT].bytes, of[RESULT].length, out, 16);
    is_same("block", "decrypted", engine, a, out, &of[TEXT], 16);
}

static void million(struct luossavin_key key, uint32_t engine)
{
    struct luossavin_answer a = {0};
    uint8_t here[16], next[16];
    if (engine == GATES || of[TEXT].length != 16) {
        return;
    }
    memcpy(here, of[TEXT].bytes, 16);
    for (int i = 0; i < 1000000; i++) {
        a = luossavin_block_encrypt(key, here, 16, next, 16);
        memcpy(here, next, 16);
    }
    is_same("million", "encrypted", engine, a, here, &of[RESULT], 16);
}

static void message(uint32_t mode, const char *kind, struct luossavin_key key, uint32_t engine)
{
    static uint8_t there[MOST + 16], back[MOST + 16];
    /* a vector of Cbc has no padding block */
    size_t length = of[RESULT].length + (mode == CBC ? 16 : 0);
    struct luossavin_answer a = luossavin_encrypt(mode, key, of[LABEL].bytes, of[LABEL].length, of[TEXT].bytes, of[TEXT].length, of[IV].bytes,
        of[IV].length, there, sizeof there);
    is_same(kind, "encrypted", engine, a, there, &of[RESULT], length);
    a = luossavin_decrypt(mode, key, of[LABEL].bytes, of[LABEL].length, there, length, of[IV].bytes, of[IV].length, back, sizeof back);
    is_same(kind, "decrypted", engine, a, back, &of[TEXT], of[TEXT].length);
}

static uint64_t big_endian(const uint8_t *b)
{
    uint64_t word = 0;
    for (int i = 0; i < 8; i++) {
        word = word << 8 | b[i];
    }
    return word;
}

/* The hash of label and text, each with zeros to its last block's end, and of the block of their lengths. */
static void ghash(void)
{
    static uint8_t all[2 * MOST + 48];
    size_t at = 0;
    struct luossavin_hash y, h = {big_endian(of[KEY].bytes), big_endian(of[KEY].bytes + 8)};
    memset(all, 0, sizeof all);
    memcpy(all, of[LABEL].bytes, of[LABEL].length);
    at = (of[LABEL].length + 15) / 16 * 16;
    memcpy(all + at, of[TEXT].bytes, of[TEXT].length);
    at += (of[TEXT].length + 15) / 16 * 16;
    for (int i = 0; i < 8; i++) {
        all[at + i] = (uint8_t)((uint64_t)(8 * of[LABEL].length) >> (56 - 8 * i));
        all[at + 8 + i] = (uint8_t)((uint64_t)(8 * of[TEXT].length) >> (56 - 8 * i));
    }
    y = luossavin_hash_blocks(h, all, at + 16);
    compared++;
    if (of[RESULT].length != 16 || y.high != big_endian(of[RESULT].bytes) || y.low != big_endian(of[RESULT].bytes + 8)) {
        differ++;
        printf("differs: ghash\n");
    }
}

static void on_engine(uint8_t kind, uint32_t engine)
{
    static const char *const modes[] = {"cfb", "ofb", "ctr", "cbc", "gcm"};
    struct luossavin_key key = luossavin_key_engine(luossavin_key_new(of[KEY].bytes, of[KEY].length, 1), engine);
    if (kind == BLOCK) {
        block(key, engine);
    } else if (kind == MILLION) {
        million(key, engine);
    } else if (kind < BLOCK) {
        message(kind, modes[kind], key, engine);
    } else {
        unreadable("a vector of no kind that is known");
    }
}

/* The next byte, behind white space and comments. Whether there is one. */
static int next_byte(uint8_t *byte)
{
    unsigned read;
    int ch;
    while ((ch = getchar()) != EOF) {
        if (ch == '#') {
            while ((ch = getchar()) != '\n' && ch != EOF) {
            }
        } else if (!isspace(ch)) {
            ungetc(ch, stdin);
            if (scanf("%2x", &read) != 1) {
                unreadable("a field that is not hex");
            }
            *byte = (uint8_t)read;
            return 1;
        }
    }
    return 0;
}

/* A field: a byte that says how many follow, and then these. Whether there is one. */
static int next_field(struct bytes *to)
{
    uint8_t length;
    if (!next_byte(&length)) {
        return 0;
    }
    for (to->length = 0; to->length < length; to->length++) {
        if (!next_byte(&to->bytes[to->length])) {
            unreadable("the list ends inside a field");
        }
    }
    return 1;
}

int main(void)
{
    unsigned vectors = 0;
    while (next_field(&of[KIND])) {
        for (int i = KEY; i < FIELDS; i++) {
            if (!next_field(&of[i])) {
                unreadable("the list ends inside a vector");
            }
        }
        if (of[KIND].length != 1) {
            unreadable("a kind that is not one byte");
        }
        vectors++;
        if (of[KIND].bytes[0] == GHASH) {
            ghash();
            continue;
        }
        for (uint32_t engine = CHOSEN; engine < ENGINES; engine++) {
            on_engine(of[KIND].bytes[0], engine);
        }
    }
    printf("%u vectors, %u results compared, %u differ, on %s\n", vectors, compared, differ, variant_name());
    return vectors == 0 || compared < vectors || differ != 0;
}
