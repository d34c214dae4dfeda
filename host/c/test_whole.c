/* Calls on blocks and on whole messages: every mode there and back, RFC 8998, each refusal and which comes first, every record, and every
 * size, room and limit. */
#include "test.h"

#include "wrap.h"

#include <stdio.h>
#include <stdlib.h>
#include <string.h>

/* What runs. A message to decrypt is spoiled as its `last` and `wrong_tag` say. */
static struct whole now;

static void describe_whole(char *words, size_t room)
{
    int n = snprintf(words, room,
        "%s %u, %s, record %u, %u, %u, iv %zu, label %zu, data %zu, room %zu, tag %s, last block and counted from ",
        now.is_block ? "block" : "mode", now.mode, now.direction == ENCRYPT ? "encrypt" : "decrypt", now.key.answer, now.key.number,
        now.key.retired, now.iv, now.label, now.data, now.room, now.wrong_tag ? "wrong" : "right");
    for (int i = 0; i < 32; i++) {
        n += snprintf(words + n, room - (size_t)n, "%s%02x", i == 16 ? " " : "", i < 16 ? now.last[i] : now.from[i - 16]);
    }
}

/* A trial. */

static void *memory(size_t count)
{
    void *bytes = malloc(count);
    if (bytes == NULL) {
        fprintf(stderr, "no memory for a message\n");
        exit(2);
    }
    return bytes;
}

/* Cbc of whole blocks without a padding block, in place. */
static void seal_in_place(const uint8_t *iv, uint8_t *data, size_t length)
{
    uint8_t *sealed = memory(length + 16);
    seal_blocks(record(sound), iv, data, length, sealed);
    memcpy(data, sealed, length);
    free(sealed);
}

/* A Cbc message that decrypts to the last block that it is to have. That is sealed by itself, since the longest
 * message has one block more than may be encrypted. */
static void seal_cbc(const struct whole *w, const uint8_t *iv, uint8_t *data)
{
    size_t front = w->data - 16;
    memcpy(data + front, w->last, 16);
    seal_in_place(iv, data, front);
    seal_in_place(front ? data + front - 16 : iv, data + front, 16);
}

/* A Gcm message that opens, or whose tag is damaged. */
static void seal_gcm(const struct whole *w, const uint8_t *iv, const uint8_t *label, uint8_t *data)
{
    struct whole sealing = {.mode = GCM, .key = sound, .iv = w->iv, .label = w->label, .data = w->data - 16, .room = w->data};
    uint8_t *text = memory(w->data);
    memcpy(text, data, w->data);
    call_whole(&sealing, record(sealing.key), iv, label, text, data);
    data[w->data - 1] ^= w->wrong_tag;
    free(text);
}

/* The longest data that the call reads: it does not read what is too long, nor a long message that has no room. */
static size_t longest_read(const struct whole *w)
{
    return w->room < room_needed(w) ? LIMIT / 2 : LIMIT + (w->direction == DECRYPT && (w->mode == CBC || w->mode == GCM) ? 16 : 0);
}

struct buffer message(const struct whole *w, struct beside b)
{
    struct buffer data = lend_input(w->data, longest_read(w));
    if (data.is_kept || w->is_block || w->direction == ENCRYPT || !takes_iv(w->mode, w->iv) || w->data < 16) {
        return data;
    }
    if (w->mode == CBC && w->data % 16 == 0) {
        seal_cbc(w, b.iv.bytes, data.bytes);
    }
    if (w->mode == GCM && w->label <= LIMIT) {
        seal_gcm(w, b.iv.bytes, b.label.bytes, data.bytes);
    }
    return data;
}

/* Whether these bytes are the text that a message was sealed of; its last block in Cbc is another. */
static int is_sealed_text(const struct whole *w, uint8_t *bytes, size_t length)
{
    size_t front = w->mode == CBC && length > w->data - 16 ? w->data - 16 : length;
    return holds_fill((struct buffer){.bytes = bytes, .length = front}) && memcmp(bytes + front, w->last, length - front) == 0;
}

/* Whether a call that is done gave what the same call on the key itself gives in plain memory with room to spare, and what the call back
 * makes its data of again; of a text that is something else, and of a message that was sealed the text. */
static int result_is(const struct whole *w, struct beside b, struct buffer data, struct buffer out, struct luossavin_answer due)
{
    struct whole roomy = *w, back = *w;
    struct luossavin_answer a;
    uint8_t *again;
    int same;
    back.room = roomy.room = w->data + 100;
    due.key = NUMBER;
    again = memory(roomy.room);
    a = call_whole(&roomy, record(sound), b.iv.bytes, b.label.bytes, data.bytes, again);
    same = difference(a, due) == NULL && memcmp(again, out.bytes, due.length) == 0;
    back.direction = w->direction == ENCRYPT ? DECRYPT : ENCRYPT;
    back.data = due.length;
    /* a padding of a byte leaves a text that is too long to be encrypted again */
    if (w->direction == ENCRYPT || due.length <= LIMIT) {
        a = call_whole(&back, record(sound), b.iv.bytes, b.label.bytes, out.bytes, again);
        same &= a.number == 0 && a.length == w->data && memcmp(again, data.bytes, w->data) == 0;
    }
    same &= w->direction == DECRYPT || w->data < 16 || memcmp(out.bytes, data.bytes, w->data) != 0;
    if (w->direction == DECRYPT && !w->is_block && w->mode >= CBC) {
        same &= is_sealed_text(w, out.bytes, due.length);
    }
    free(again);
    return same;
}

void try_whole(struct whole w)
{
    try_whole_by(call_whole, w);
}

void try_whole_by(caller *call, struct whole w)
{
    struct luossavin_answer due;
    struct beside b = lend_beside(w.mode, w.iv, w.label);
    struct buffer data = message(&w, b), out = lend(w.room, LENT);
    size_t looked_at = data.is_kept ? 0 : w.data;
    uint8_t *before = memory(looked_at + 1);
    count_from(w.mode, record(w.key), b.iv.bytes, w.iv, w.from);
    due = answer_to(&w);
    now = w;
    describe = describe_whole;
    memcpy(before, data.bytes, looked_at);
    shut(data);
    if (judge(call(&w, record(w.key), lent(b.iv), lent(b.label), lent(data), lent(out)), due) && wrote_only(out, due.length)) {
        holds_now(due.number != 0 || result_is(&w, b, data, out, due) ? NULL : "its output goes by more than its inputs");
        holds_now(memcmp(before, data.bytes, looked_at) == 0 ? NULL : "it changes an input");
    }
    take_back(b);
    give_back(data);
    give_back(out);
    free(before);
}

/* By hand. */

static void single_block(void)
{
    static const uint8_t result[16] = {0x68, 0x1e, 0xdf, 0x34, 0xd2, 0x06, 0x96, 0x5e, 0x86, 0xb3, 0xe9, 0x4f, 0x53, 0x6e, 0x42, 0x46};
    uint8_t *there = lend_again(one), *back = lend_again(two);
    struct luossavin_key under = luossavin_key_engine(luossavin_key_new(rfc_key, 16, NUMBER), key.engine);
    struct luossavin_answer a = luossavin_block_encrypt(under, rfc_key, 16, there, ROOM);
    check(done(a, 16) && untouched(one, 16), "a block is encrypted", "block", 16);
    check(memcmp(there, result, 16) == 0, "GB/T 32907's example 1", "block", 16);
    a = luossavin_block_decrypt(under, there, 16, back, ROOM);
    check(done(a, 16) && untouched(two, 16), "a block is decrypted", "block", 16);
    check(memcmp(back, rfc_key, 16) == 0, "the block comes back", "block", 16);
}

/* RFC 8998. */

const uint8_t rfc_key[16] = {0x01, 0x23, 0x45, 0x67, 0x89, 0xab, 0xcd, 0xef, 0xfe, 0xdc, 0xba, 0x98, 0x76, 0x54, 0x32, 0x10};
const uint8_t rfc_iv[12] = {0x00, 0x00, 0x12, 0x34, 0x56, 0x78, 0x00, 0x00, 0x00, 0x00, 0xab, 0xcd};
const uint8_t rfc_label[20] = {0xfe, 0xed, 0xfa, 0xce, 0xde, 0xad, 0xbe, 0xef, 0xfe, 0xed, 0xfa, 0xce, 0xde,
    0xad, 0xbe, 0xef, 0xab, 0xad, 0xda, 0xd2};
const uint8_t rfc_text[64] = {0xaa, 0xaa, 0xaa, 0xaa, 0xaa, 0xaa, 0xaa, 0xaa, 0xbb, 0xbb, 0xbb, 0xbb, 0xbb,
    0xbb, 0xbb, 0xbb, 0xcc, 0xcc, 0xcc, 0xcc, 0xcc, 0xcc, 0xcc, 0xcc, 0xdd, 0xdd, 0xdd, 0xdd, 0xdd, 0xdd, 0xdd, 0xdd,
    0xee, 0xee, 0xee, 0xee, 0xee, 0xee, 0xee, 0xee, 0xff, 0xff, 0xff, 0xff, 0xff, 0xff, 0xff, 0xff, 0xee, 0xee, 0xee,
    0xee, 0xee, 0xee, 0xee, 0xee, 0xaa, 0xaa, 0xaa, 0xaa, 0xaa, 0xaa, 0xaa, 0xaa};
const uint8_t rfc_sealed[80] = {0x17, 0xf3, 0x99, 0xf0, 0x8c, 0x67, 0xd5, 0xee, 0x19, 0xd0, 0xdc, 0x99, 0x69,
    0xc4, 0xbb, 0x7d, 0x5f, 0xd4, 0x6f, 0xd3, 0x75, 0x64, 0x89, 0x06, 0x91, 0x57, 0xb2, 0x82, 0xbb, 0x20, 0x07, 0x35,
    0xd8, 0x27, 0x10, 0xca, 0x5c, 0x22, 0xf0, 0xcc, 0xfa, 0x7c, 0xbf, 0x93, 0xd4, 0x96, 0xac, 0x15, 0xa5, 0x68, 0x34,
    0xcb, 0xcf, 0x98, 0xc3, 0x97, 0xb4, 0x02, 0x4a, 0x26, 0x91, 0x23, 0x3b, 0x8d, 0x83, 0xde, 0x35, 0x41, 0xe4, 0xc2,
    0xb5, 0x81, 0x77, 0xe0, 0x65, 0xa9, 0xbf, 0x7b, 0x62, 0xec};

static struct luossavin_answer rfc_decrypt(const uint8_t *aad, size_t aad_len, const uint8_t *nonce, size_t nonce_len, uint8_t *out)
{
    return luossavin_decrypt(GCM, luossavin_key_new(rfc_key, 16, NUMBER), aad, aad_len, rfc_sealed, sizeof rfc_sealed, nonce, nonce_len,
        out, ROOM);
}

static void rfc_8998(void)
{
    uint8_t *there = lend_again(one), *back = lend_again(two);
    struct luossavin_answer a = luossavin_encrypt(GCM, luossavin_key_new(rfc_key, 16, NUMBER), rfc_label, sizeof rfc_label, rfc_text,
        sizeof rfc_text, rfc_iv, 12, there, ROOM);
    check(done(a, 80) && untouched(one, 80), "it is sealed", "RFC 8998", 80);
    check(memcmp(there, rfc_sealed, 80) == 0, "ciphertext and tag", "RFC 8998", 80);
    a = rfc_decrypt(rfc_label, sizeof rfc_label, rfc_iv, 12, back);
    check(done(a, 64) && untouched(two, 64), "it is opened", "RFC 8998", 64);
    check(memcmp(back, rfc_text, 64) == 0, "the text", "RFC 8998", 64);
}

/* The same message under another label, and under other IVs: one that differs in a bit, and the 16-byte one
 * that extends its own with 00000001. That the last is refused is so for this key and IV; of others nothing
 * is claimed between the two lengths. */
static void rfc_8998_otherwise(void)
{
    uint8_t other_label[20], other_iv[12], extended[16] = {0}, *out = lend_again(one);
    memcpy(other_label, rfc_label, 20);
    other_label[19] ^= 1;
    memcpy(other_iv, rfc_iv, 12);
    other_iv[11] ^= 1;
    memcpy(extended, rfc_iv, 12);
    extended[15] = 1;
    refused(rfc_decrypt(other_label, 20, rfc_iv, 12, out), 4, "RFC 8998, another label");
    refused(rfc_decrypt(rfc_label, 19, rfc_iv, 12, out), 4, "RFC 8998, a shorter label");
    refused(rfc_decrypt(rfc_label, 20, other_iv, 12, out), 4, "RFC 8998, another IV");
    refused(rfc_decrypt(rfc_label, 20, extended, 16, out), 4, "RFC 8998, the IV with 00000001 after it");
}

/* Refusals whose numbers are written down here, so that the rules are held to them as well. A retired key comes behind mode, key, number
 * and IV, or the block's length, and before all else. */

enum { OVER = LIMIT + 1 };
static const struct {
    uint32_t number;
    struct whole w;
} written[] = {
    /* each alone */
    {1, {.key = {1, 0, 0}, .iv = 16, .data = 32, .room = ROOM}},
    {1, {.is_block = 1, .key = {1, 0, 0}, .data = 16, .room = ROOM}},
    {13, {.mode = OFB, .direction = DECRYPT, .key = {13, 0, 0}, .iv = 16, .data = 32, .room = ROOM}},
    {13, {.is_block = 1, .direction = DECRYPT, .key = {13, 0, 0}, .data = 16, .room = ROOM}},
    {2, {.mode = CBC, .direction = DECRYPT, .key = {0, NUMBER, 0}, .iv = 16, .label = 6, .data = 17, .room = ROOM}},
    {2, {.mode = CBC, .direction = DECRYPT, .key = {0, NUMBER, 0}, .iv = 16, .label = 6, .data = 1, .room = ROOM}},
    {3, {.mode = CBC, .direction = DECRYPT, .key = {0, NUMBER, 0}, .iv = 16, .label = 6, .data = 32, .room = ROOM, .last = {[15] = 17}}},
    {15, {.mode = CBC, .direction = DECRYPT, .key = {0, NUMBER, 0}, .iv = 16, .label = 6, .data = 32, .room = ROOM, .last = {[15] = 2}}},
    {4, {.mode = GCM, .direction = DECRYPT, .key = {0, NUMBER, 0}, .iv = 16, .label = 6, .data = 48, .room = ROOM, .wrong_tag = 1}},
    {5, {.mode = CTR, .key = {0, NUMBER, 0}, .iv = 16, .label = 6, .data = OVER, .room = ROOM}},
    {6, {.mode = CTR, .key = {0, NUMBER, 0}, .iv = 16, .label = 6, .data = 32, .room = 31}},
    {7, {.mode = 5, .key = {0, NUMBER, 0}, .iv = 16, .label = 6, .data = 32, .room = ROOM}},
    {8, {.mode = CBC, .direction = DECRYPT, .key = {0, NUMBER, 0}, .iv = 16, .label = 6, .room = ROOM}},
    {11, {.is_block = 1, .key = {0, NUMBER, 0}, .data = 15, .room = ROOM}},
    {11, {.is_block = 1, .direction = DECRYPT, .key = {0, NUMBER, 0}, .data = 17, .room = ROOM}},
    {14, {.mode = CTR, .key = {0, NUMBER, 1}, .iv = 16, .data = 32, .room = ROOM}},
    /* which comes first */
    {1, {.is_block = 1, .key = {1, 0, 0}, .data = 15}},
    {11, {.is_block = 1, .direction = DECRYPT, .key = {0, NUMBER, 0}, .data = 15}},
    {7, {.mode = 5, .direction = DECRYPT, .key = {1, 0, 0}, .iv = 13, .data = 3}},
    {1, {.mode = GCM, .direction = DECRYPT, .key = {1, 0, 0}, .iv = 13, .data = 3}},
    {10, {.mode = GCM, .direction = DECRYPT, .key = {0, NUMBER, 0}, .iv = 13, .data = 3, .room = ROOM}},
    {10, {.mode = CBC, .direction = DECRYPT, .key = {0, NUMBER, 0}, .iv = 12, .room = ROOM}},
    {10, {.mode = GCM, .direction = DECRYPT, .key = {0, NUMBER, 0}, .iv = 13, .label = OVER, .data = 3}},
    {5, {.mode = GCM, .direction = DECRYPT, .key = {0, NUMBER, 0}, .iv = 16, .label = OVER, .data = 3, .room = ROOM}},
    {5, {.mode = GCM, .direction = DECRYPT, .key = {0, NUMBER, 0}, .iv = 12, .label = OVER, .data = 3}},
    {5, {.mode = GCM, .direction = DECRYPT, .key = {0, NUMBER, 0}, .iv = 16, .label = OVER}},
    {9, {.mode = GCM, .direction = DECRYPT, .key = {0, NUMBER, 0}, .iv = 16, .label = 6, .data = 15}},
    {2, {.mode = CBC, .direction = DECRYPT, .key = {0, NUMBER, 0}, .iv = 16, .label = 6, .data = 17}},
    {8, {.mode = CBC, .direction = DECRYPT, .key = {0, NUMBER, 0}, .iv = 16, .label = 6}},
    /* where a retired key comes */
    {1, {.is_block = 1, .key = {1, NUMBER, 1}, .data = 16, .room = ROOM}},
    {13, {.is_block = 1, .key = {13, NUMBER, 1}, .data = 16, .room = ROOM}},
    {11, {.is_block = 1, .key = {0, NUMBER, 1}, .data = 15, .room = ROOM}},
    {14, {.is_block = 1, .key = {0, NUMBER, 1}, .data = 16, .room = 15}},
    {7, {.mode = 5, .key = {0, NUMBER, 1}, .iv = 16, .data = 16, .room = ROOM}},
    {14, {.mode = GCM, .key = {0, NUMBER, 1}, .iv = 12, .label = OVER, .data = 16, .room = ROOM}},
};

/* The same in every mode. */
static const struct {
    uint32_t number;
    struct whole w;
} written_for_modes[] = {
    {1, {.key = {1, NUMBER, 1}, .iv = 16, .data = 16, .room = ROOM}},
    {13, {.key = {13, NUMBER, 1}, .iv = 16, .data = 16, .room = ROOM}},
    {10, {.key = {0, NUMBER, 1}, .iv = 15, .data = 16, .room = ROOM}},
    {14, {.key = {0, NUMBER, 1}, .iv = 16, .room = ROOM}},
    {14, {.key = {0, NUMBER, 1}, .iv = 16, .data = OVER, .room = ROOM}},
    {14, {.key = {0, NUMBER, 1}, .iv = 16, .data = 16}},
};

static void try_written(struct whole w, uint32_t number, size_t row)
{
    struct luossavin_answer due = answer_to(&w);
    check(due.number == number, "a number that is written down", "the rules", row);
    check(due.missing == (number == 9 ? 16 - w.data : 0), "a missing count that is written down", "the rules", row);
    try_whole(w);
}

static void refusals(void)
{
    static const size_t wrong_ivs[] = {0, 1, 11, 13, 15, 17, 12};
    for (size_t i = 0; i < sizeof written / sizeof *written; i++) {
        try_written(written[i].w, written[i].number, i);
    }
    for (uint32_t mode = CFB; mode <= GCM; mode++) {
        for (size_t i = 0; i < sizeof written_for_modes / sizeof *written_for_modes; i++) {
            struct whole w = written_for_modes[i].w;
            w.mode = mode;
            try_written(w, written_for_modes[i].number, i);
        }
        /* 12 bytes are wrong outside Gcm */
        for (size_t i = 0; i < sizeof wrong_ivs / sizeof *wrong_ivs - (mode == GCM); i++) {
            struct whole w = {.mode = mode, .key = sound, .iv = wrong_ivs[i], .label = 6, .data = 32, .room = ROOM};
            try_written(w, 10, i);
            w.direction = DECRYPT;
            try_written(w, 10, i);
        }
    }
    for (size_t n = 0; n < 16; n++) {
        struct whole w = {.mode = GCM, .direction = DECRYPT, .key = sound, .iv = 16, .label = 6, .data = n, .room = ROOM};
        try_written(w, 9, n);
        w.iv = 12;
        try_written(w, 9, n);
    }
}

/* Every record, alone and with every other thing wrong as well. */

/* So much data, and more than is allowed, into no room and into enough. */
static void with_lengths(struct whole w, size_t length)
{
    const size_t lengths[] = {0, 3, length, OVER};
    for (int i = 0; i < 4; i++) {
        w.data = lengths[i];
        for (w.room = 0; w.room <= ROOM; w.room += ROOM) {
            try_whole(w);
        }
    }
}

/* A text of 19 bytes to encrypt, or a message to decrypt. */
static void with_message(struct whole w)
{
    with_lengths(w, w.direction == ENCRYPT || w.mode < CBC || w.mode > GCM ? 19 : w.mode == CBC ? 32 : 35);
}

/* Messages to decrypt that are refused for their tag, or for their padding: one that names none, and one that names
 * twelve bytes where the others hold 13. */
static void with_spoiled(struct whole w)
{
    w.wrong_tag = 1;
    w.last[15] = 17;
    with_message(w);
    if (w.mode == CBC) {
        w.last[15] = 12;
        with_message(w);
    }
}

static void on_record(struct holder fields)
{
    struct whole w = {.is_block = 1, .key = fields};
    for (w.direction = ENCRYPT; w.direction <= DECRYPT; w.direction++) {
        for (w.data = 0; w.data <= 33; w.data += w.data == 17 ? 15 : 1) {
            for (w.room = 0; w.room <= 32; w.room += w.room == 17 ? 15 : 1) {
                try_whole(w);
            }
        }
    }
    w = (struct whole){.key = fields};
    pad(w.last, 13);
    for (w.mode = CFB; w.mode <= GCM + 1; w.mode++) {
        for (w.iv = 12; w.iv <= 16; w.iv += 2) {
            for (w.direction = ENCRYPT; w.direction <= DECRYPT; w.direction++) {
                w.label = OVER;
                with_message(w);
                w.label = sizeof label;
                with_message(w);
                if (w.direction == DECRYPT && (w.mode == CBC || w.mode == GCM)) {
                    with_spoiled(w);
                }
            }
        }
    }
}

/* Cbc's padding, by numbers that are written down: each bit changed of every byte of the last block but the last one, for every count;
 * every last byte behind fifteen that are 0, and behind fifteen that are the same. Under a key and a retired one; with room for one byte
 * less the answer is 6. */

static void try_padding(size_t blocks, const uint8_t last[16], uint32_t number)
{
    struct whole w = {.mode = CBC, .direction = DECRYPT, .key = sound, .iv = 16, .label = sizeof label, .data = 16 * blocks};
    memcpy(w.last, last, 16);
    for (w.key.retired = 0; w.key.retired <= 1; w.key.retired++) {
        for (w.room = w.data - 1; w.room <= w.data + 1; w.room++) {
            try_written(w, w.room < w.data ? 6 : number, last[15]);
        }
    }
}

static void each_bit(size_t blocks, uint8_t count)
{
    uint8_t last[16];
    for (size_t i = 0; i < 16; i++) {
        last[i] = (uint8_t)(37 * i + count);
    }
    pad(last, count);
    try_padding(blocks, last, 0);
    for (size_t bit = 0; bit < 8 * 15; bit++) {
        last[bit / 8] ^= (uint8_t)(1 << bit % 8);
        try_padding(blocks, last, 16 - bit / 8 <= count ? 15 : 0);
        last[bit / 8] ^= (uint8_t)(1 << bit % 8);
    }
}

void paddings(void)
{
    for (uint8_t count = 1; count <= 16; count++) {
        for (size_t blocks = 1; blocks <= 3; blocks++) {
            each_bit(blocks, count);
        }
    }
    for (unsigned byte = 0; byte < 256; byte++) {
        uint8_t last[16] = {0};
        last[15] = (uint8_t)byte;
        try_padding(1, last, byte == 1 ? 0 : byte >= 2 && byte <= 16 ? 15 : 3);
        memset(last, (int)byte, 16);
        try_padding(1, last, byte >= 1 && byte <= 16 ? 0 : 3);
    }
}

void whole_messages(void)
{
    /* every mode there and back, Gcm under both lengths of IV, where no counter comes round */
    before_wrap = FAR;
    for (int i = 0; i < 41 * 6; i++) {
        struct whole w = {.mode = i % 6 < 5 ? (uint32_t)(i % 6) : GCM, .key = sound, .iv = i % 6 < 5 ? 16 : 12, .label = sizeof label,
            .data = (size_t)i / 6, .room = ROOM};
        try_whole(w);
        pad(w.last, (uint8_t)(16 - w.data % 16));
        w.data = room_needed(&w);
        w.direction = DECRYPT;
        try_whole(w);
    }
    before_wrap = 1;
    single_block();
    rfc_8998();
    rfc_8998_otherwise();
    refusals();
    /* and where a counter comes round with the second block */
    before_wrap = 0;
    refusals();
    before_wrap = 1;
    every_record(on_record);
}

/* Of any size. */

/* The same, with a padding and a tag that are right, and then with wrong ones. */
static struct whole good(struct whole w)
{
    pad(w.last, 1);
    w.wrong_tag = 0;
    return w;
}

static struct whole spoiled(struct whole w)
{
    w.last[15] = 17;
    w.wrong_tag = 1;
    return w;
}

/* With a padding of so many bytes, of which the one that stands `back` bytes before the last is another. */
static struct whole mispadded(struct whole w, uint8_t count, uint8_t back)
{
    pad(w.last, count);
    w.last[15 - back] ^= 1;
    return w;
}

/* A message as it should be, and spoiled in every way that there is for it. */
static void each_of(struct whole w, void (*tried)(struct whole w))
{
    tried(good(w));
    tried(spoiled(w));
    if (w.mode == CBC && w.direction == DECRYPT) {
        tried(mispadded(w, 2, 1));
        tried(mispadded(w, 16, 15));
    }
}

/* Every room from none to one more than needed. */
static void try_rooms(struct whole w)
{
    size_t needed = room_needed(&w);
    for (w.room = 0; w.room <= needed + 1; w.room++) {
        try_whole(w);
    }
}

/* Messages under a record and an IV that the mode takes: good and spoiled, under labels, into every room. */
static void messages(struct whole w, int label_count)
{
    static const size_t labels[] = {0, 16, 1, 15, 17};
    for (int i = 0; i < label_count; i++) {
        w.label = labels[i];
        for (w.data = 0; w.data <= 49; w.data++) {
            each_of(w, try_rooms);
        }
    }
}

/* Of any record and any IV; then of those that are in order, retired ones under fewer labels. */
static void sizes(uint32_t mode, int direction)
{
    struct whole w = {.mode = mode, .direction = direction, .label = 5, .last = {[15] = 1}};
    for (int i = 0; i < HOLDERS * IVS; i++) {
        w.key = holders[i / IVS];
        w.iv = iv_lengths[i % IVS];
        for (w.data = 0; w.data < 50; w.data += is_sparse ? 16 : 1) {
            for (w.room = 0; w.room <= 80; w.room += 40) {
                try_whole(w);
            }
        }
    }
    for (w.iv = mode == GCM ? 12 : 16; w.iv <= 16; w.iv += 4) {
        w.key = holders[0];
        messages(w, 5);
        w.key = holders[1];
        messages(w, is_sparse ? 1 : 2);
    }
}

static void bad_modes(void)
{
    static const uint32_t modes[] = {5, 6, 7, 255, 256, 65536, 0x7fffffff, 0x80000000, 0xfffffffe, 0xffffffff};
    for (int i = 0; i < 10 * 2 * HOLDERS; i++) {
        /* whatever else is wrong, and with nothing else wrong */
        struct whole w = {.mode = modes[i % 10], .direction = i / 10 % 2, .key = holders[i / 20]};
        try_whole(w);
        w.iv = 17, w.data = 17, w.room = 3;
        try_whole(w);
        w.iv = 16, w.label = 5, w.data = 32, w.room = 64;
        try_whole(w);
    }
}

/* One at each limit, one over it, and what comes first where more than one thing is wrong. */
static void limits(uint32_t mode, int direction)
{
    size_t most = direction == DECRYPT && (mode == CBC || mode == GCM) ? LIMIT + 16 : LIMIT;
    /* a retired key does not encrypt, and that comes before the limit; the label comes before data that is too short, and the IV before
     * both; Gcm takes one of 12 bytes */
    const struct { int holder; size_t iv, label, data, room; } rows[] = {
        {0, 16, 5, most + 1, most + 100}, {0, 16, 5, most + 1, 0}, {0, 17, 5, most + 1, 0}, {1, 16, 5, most + 1, 0}, {1, 16, 5, most, 0},
        {1, 16, OVER, 48, 0}, {0, 16, 5, most + 16, most + 100}, {0, 16, LIMIT, 48, most + 100}, {0, 16, OVER, 48, most + 100},
        {0, 16, OVER, 3, 0}, {0, 16, OVER, 0, 0}, {0, 13, OVER, 0, 0}, {0, 12, OVER, 0, 0}, {0, 12, LIMIT, 0, 0}};
    struct whole w = {.mode = mode, .direction = direction, .key = holders[0], .iv = 16, .label = 5, .data = most};
    w.room = room_needed(&w);
    each_of(w, try_whole);
    w.room--;
    each_of(w, try_whole);
    for (size_t i = 0; i < sizeof rows / sizeof *rows; i++) {
        w = (struct whole){.mode = mode, .direction = direction, .key = holders[rows[i].holder], .iv = rows[i].iv, .label = rows[i].label,
            .data = rows[i].data, .room = rows[i].room};
        try_whole(good(w));
    }
    w.data = most;
    w.room = room_needed(&w);
    each_of(w, try_whole);
}

/* A text at the limit whose last counter is the one that has come round, and then all ones. */
static void just_round(uint32_t mode, int direction)
{
    uint32_t usual = before_wrap, counters = LIMIT / 16 + (mode == GCM);
    struct whole w = {.mode = mode, .direction = direction, .key = holders[0], .iv = 16, .data = LIMIT};
    w.data += mode == GCM && direction == DECRYPT ? 16 : 0;
    w.room = room_needed(&w);
    for (before_wrap = counters - 2; before_wrap < counters; before_wrap++) {
        try_whole(w);
    }
    before_wrap = usual;
}

void whole_messages_of_any_size(void)
{
    for (uint32_t mode = CFB; mode <= GCM; mode++) {
        for (int direction = ENCRYPT; direction <= DECRYPT; direction++) {
            sizes(mode, direction);
            if (with_limits) {
                limits(mode, direction);
            }
            if (with_limits && (mode == CTR || mode == GCM)) {
                just_round(mode, direction);
            }
        }
    }
    bad_modes();
}
