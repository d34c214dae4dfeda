/* Holds the library, libgcrypt and OpenSSL to recorded answers of libsm. Where docs/DIFFERENCES.md lists another
 * answer, both sides are held to just that. Where libsm refuses a 12-byte IV in Gcm, the library is held to
 * libgcrypt instead; where a Cbc padding is not borne out, libsm is to go by its last byte, and the library to refuse
 * it. The library is also held to OpenSSL's own check of the padding (compare_padding.c).
 *
 *   compare < LIST
 *
 * The library makes each call under the key with number 1, on each of its engines. Every third call it makes once more with the
 * key retired, under another number: decryption must then be what it was, and encryption the refusal that the rules
 * (rules.c) say. They also say whether a counter came round, of which libsm has no report. Prints, for each of the
 * three, how many records were compared and how many differ; the same of paddings; how many had a 12-byte IV in Gcm;
 * what came of those that were retired; in how many answers a counter came round; and the smallest record that
 * differs. Exit status 1 if any does, 2 if the list cannot be read.
 */
#define _POSIX_C_SOURCE 200809L /* open_memstream */

#include "compare.h"

#include "calls.h"
#include "peers.h"
#include "variant.h"
#include "wrap.h"

#include <stdio.h>
#include <stdlib.h>
#include <string.h>

enum { LENT = 0xa5, SLACK = 40 };

struct tally tally[SIDES];

/* Of the records with a 12-byte IV in Gcm, how many the library is to seal, to open and to refuse. */
static struct {
    unsigned long sealed, opened, refused;
} twelve;

/* Of the records that are asked again under a retired key: how many encryptions that makes refusals, how many
 * decryptions are done as they were, and how many of both are refused as they were. */
static struct {
    unsigned long stopped, decrypted, refused;
} again;

/* In how many answers of the library a counter came round; libsm has no such report. */
static unsigned long came_round;

/* From how many bytes on texts are hashed in several hashes, and the gates do more than one group of blocks; and how many records have so many. */
enum { BATCH = 257 };
static unsigned long batches;

/* The number that the library must answer: that of libsm's name, or, of the inputs that
 * docs/DIFFERENCES.md lists, what is said there. */
static uint32_t number_for(const struct record *r)
{
    enum { INNER_PADDING_BYTES = 7, CBC_OF_NOTHING = 20, SHORT_GCM, TOO_LONG, INNER_PADDING_BYTE };
    switch (r->part) {
    case INNER_PADDING_BYTES:
    case INNER_PADDING_BYTE:
        return 15;
    case CBC_OF_NOTHING:
        return 8;
    case SHORT_GCM:
        return 9;
    case TOO_LONG:
        return 5;
    }
    if (r->name == ERROR_BLOCK_SIZE) {
        /* libsm's one name for three: the key, then the block or the IV */
        return r->key.length != 16 ? 1 : r->mode == BLOCK ? 11 : 10;
    }
    return r->name;
}

/* A record as the rules see it, under a key with these fields and with `slack` bytes of room more than it needs.
 * Whether a tag is right is taken from libsm's answer, and Cbc's last block from libgcrypt. */
static struct whole whole_of(const struct record *r, struct luossavin_key key, struct holder fields, size_t slack)
{
    struct whole w = {.is_block = r->mode == BLOCK, .mode = r->mode, .direction = r->direction, .key = fields,
        .iv = r->iv.length, .label = r->label.length, .data = r->data.length};
    last_block(r, w.last);
    count_from(r->mode, key, r->iv.bytes, r->iv.length, w.from);
    w.wrong_tag = r->name == INVALID_TAG;
    w.room = room_needed(&w) + slack;
    return w;
}

/* Whether what the rules say is what is recorded: libsm's number and length, or what docs/DIFFERENCES.md lists in their
 * place. A padding that is refused with 15 libsm takes for as many bytes as the last one says; of 14 it knows
 * nothing. */
static int is_as_recorded(const struct record *r, const struct whole *w, struct luossavin_answer due)
{
    switch (due.number) {
    case 14:
        return 1;
    case 15:
        return r->name == OK && r->output.length == r->data.length - w->last[15];
    default:
        return due.number == number_for(r) && due.length == (due.number == 0 ? r->output.length : 0);
    }
}

/* Whether a record has an IV that libsm refuses and the library takes. */
static int has_twelve(const struct record *r)
{
    return r->mode == GCM && r->iv.length == 12;
}

/* Whose answer a record holds: that of a 12-byte IV is put into it by ask_gcrypt. */
static const char *answers_for(const struct record *r)
{
    return has_twelve(r) ? peers[0].name : "libsm";
}

/* The smallest record that differs, kept as text. */
static char *smallest;
static size_t smallest_size = SIZE_MAX;

static void print_field(FILE *to, const char *name, struct field f)
{
    fprintf(to, "  %-6s ", name);
    for (size_t i = 0; i < f.length && i < 256; i++) {
        fprintf(to, "%02x", f.bytes[i]);
    }
    fprintf(to, f.length > 256 ? ".. (%zu bytes)\n" : " (%zu bytes)\n", f.length);
}

void differs(int side, const char *who, const struct record *r, const char *what, struct field got)
{
    size_t length, size = r->label.length + r->data.length;
    FILE *to;
    tally[side].differ++;
    if (size >= smallest_size) {
        return;
    }
    smallest_size = size;
    free(smallest);
    to = open_memstream(&smallest, &length);
    if (to == NULL) {
        perror("compare");
        exit(2);
    }
    fprintf(to, "%s, %s %s, part %u: %s\n", who, mode_names[r->mode], direction_names[r->direction], r->part, what);
    print_field(to, "key", r->key);
    print_field(to, "iv", r->iv);
    print_field(to, "label", r->label);
    print_field(to, "data", r->data);
    fprintf(to, "  %s answers %s\n", answers_for(r), answer_names[r->name]);
    print_field(to, "answer", r->output);
    print_field(to, "got", got);
    fclose(to);
}

uint8_t *buffer(int which, size_t count)
{
    static uint8_t *bytes[2];
    static size_t room[2];
    if (count > room[which]) {
        free(bytes[which]);
        room[which] = count;
        bytes[which] = malloc(count);
        if (bytes[which] == NULL) {
            fprintf(stderr, "no memory for an output\n");
            exit(2);
        }
    }
    return bytes[which];
}

/* The length that a peer gives. */
static size_t raw_length(const struct record *r, size_t n)
{
    return r->mode != GCM ? n : r->direction == ENCRYPT ? n + 16 : n - 16;
}

/* Puts libgcrypt's answer into a record with a 12-byte IV, and counts it. libsm must have refused it, and
 * for its IV: a key of another size, or fewer bytes than a tag to open, would be another difference, and
 * are in no record. */
static void ask_gcrypt(struct record *r)
{
    uint8_t *out = buffer(BESIDE, r->data.length + 16);
    enum verdict verdict = CANNOT;
    if (r->name == ERROR_BLOCK_SIZE && r->key.length == 16 && (r->direction == ENCRYPT || r->data.length >= 16)) {
        verdict = peers[0].run(GCM, r->direction, r->key.bytes, r->iv, r->label, r->data, out);
    }
    if (verdict == CANNOT) {
        fprintf(stderr, "a record with a 12-byte IV that libsm does not refuse, or libgcrypt cannot answer\n");
        exit(2);
    }
    r->name = verdict == DONE ? OK : INVALID_TAG;
    r->output = (struct field){out, verdict == DONE ? raw_length(r, r->data.length) : 0};
    *(verdict == BAD_TAG ? &twelve.refused : r->direction == ENCRYPT ? &twelve.sealed : &twelve.opened) += 1;
}

static int is_filled(const uint8_t *bytes, size_t count)
{
    for (size_t i = 0; i < count; i++) {
        if (bytes[i] != LENT) {
            return 0;
        }
    }
    return 1;
}

/* The call on a key's record, which must have the fields that are expected of it. Gives the number that is due. */
static uint32_t compare_under(const struct record *r, struct luossavin_key key, struct holder fields, size_t slack)
{
    const struct luossavin_key due_key = holding(key, fields);
    struct whole w = whole_of(r, key, fields, slack);
    struct luossavin_answer a, due = answer_to(&w);
    uint8_t *out = buffer(GOT, w.room + SLACK);
    struct field got = {out, 0};
    char what[120];
    memset(out, LENT, w.room + SLACK);
    a = call_whole(&w, key, r->iv.bytes, r->label.bytes, r->data.bytes, out);
    got.length = a.length <= w.room ? a.length : w.room;
    if (!is_as_recorded(r, &w, due)) {
        differs(ARCHIVE, "the rules", r, "what they say is not what is recorded", got);
    } else if (!same_key(&key, &due_key)) {
        snprintf(what, sizeof what, "its key's record is %u, %u, %u", key.answer, key.number, key.retired);
        differs(ARCHIVE, "the library", r, what, got);
    } else if (difference(a, due) != NULL) {
        snprintf(what, sizeof what, "number %u, missing %u, key %u, length %zu, round %u, expected %u, %u, %u, %zu, %u",
            a.number, a.missing, a.key, a.length, a.came_round, due.number, due.missing, due.key, due.length,
            due.came_round);
        differs(ARCHIVE, "the library", r, what, got);
    } else if (memcmp(out, r->output.bytes, due.length) != 0) {
        differs(ARCHIVE, "the library", r, "the output is another", got);
    } else if (!is_filled(out + due.length, w.room + SLACK - due.length)) {
        differs(ARCHIVE, "the library", r, "a byte past the length is written", got);
    }
    came_round += due.came_round;
    return due.number;
}

/* Under the key, with each mark of an engine; every third time then under the key retired, with one of them in turn. */
static void compare_archive(const struct record *r, uint32_t index)
{
    /* the least room and more than that, by turns; what lies past the room must stay as it is too */
    size_t slack = index % 2 ? SLACK / 2 : 0;
    uint32_t number = 1 + index % 65535;
    struct luossavin_key key = luossavin_key_new(r->key.bytes, r->key.length, 1);
    tally[ARCHIVE].compared++;
    for (uint32_t mark = 0; mark < ENGINES; mark++) {
        compare_under(r, luossavin_key_engine(key, mark), set_up(r->key.length, 1), slack);
    }
    if (r->data.length >= BATCH) {
        batches++;
    }
    if (index % 3 == 2) {
        struct luossavin_key old = luossavin_key_retire(luossavin_key_new(r->key.bytes, r->key.length, number));
        old = luossavin_key_engine(old, index / 3 % ENGINES);
        uint32_t answer = compare_under(r, old, retired(set_up(r->key.length, number)), slack);
        *(answer == 14 ? &again.stopped : answer == 0 ? &again.decrypted : &again.refused) += 1;
    }
}

/* The data as a peer takes it: Cbc's padding is added here. */
static struct field padded(const struct record *r)
{
    static uint8_t *bytes;
    struct field f = r->data;
    size_t whole = f.length / 16 * 16 + 16;
    if (r->mode != CBC || r->direction != ENCRYPT) {
        return f;
    }
    free(bytes);
    bytes = malloc(whole);
    if (bytes == NULL) {
        fprintf(stderr, "no memory for a padded message\n");
        exit(2);
    }
    memset(bytes, (int)(whole - f.length), whole);
    memcpy(bytes, f.bytes, f.length);
    return (struct field){bytes, whole};
}

/* Whether a peer's raw result means what libsm answered; `got` becomes the message in it. */
static int same(const struct record *r, enum verdict verdict, struct field *got)
{
    if (r->name == INVALID_TAG) {
        return verdict == BAD_TAG;
    }
    if (verdict != DONE) {
        return 0;
    }
    if (r->mode == CBC && r->direction == DECRYPT) {
        uint8_t last = got->bytes[got->length - 1];
        int valid = last >= 1 && last <= 16;
        if (r->name == INVALID_LAST_U8 || !valid) {
            return r->name == INVALID_LAST_U8 && !valid;
        }
        got->length -= last;
    }
    return got->length == r->output.length && memcmp(got->bytes, r->output.bytes, got->length) == 0;
}

static void compare_peer(int side, const struct peer *p, const struct record *r)
{
    struct field data = padded(r), got;
    enum verdict verdict;
    if (r->name == ERROR_BLOCK_SIZE || r->name == ERROR_DATA_LEN || r->name == PANICKED) {
        return; /* a peer has its own way to refuse these */
    }
    if (has_twelve(r)) {
        return; /* the answer is libgcrypt's own, and OpenSSL 3.0 has no SM4 in Gcm */
    }
    got.bytes = buffer(GOT, data.length + 16);
    got.length = raw_length(r, data.length);
    verdict = p->run(r->mode, r->direction, r->key.bytes, r->iv, r->label, data, (uint8_t *)got.bytes);
    if (verdict == CANNOT && r->mode == GCM && side == PEERS + 1) {
        return; /* OpenSSL 3.0 has no SM4 in Gcm */
    }
    tally[side].compared++;
    if (!same(r, verdict, &got)) {
        differs(side, p->name, r, verdict == CANNOT ? "it reports an error" : "the result is another", got);
    }
}

int main(void)
{
    uint32_t count = read_head();
    unsigned long differ = 0;
    struct record r;
    start_peers();
    for (uint32_t i = 0; i < count; i++) {
        read_record(&r);
        if (has_twelve(&r)) {
            ask_gcrypt(&r);
        }
        compare_archive(&r, i);
        compare_padding(&r);
        for (int p = 0; p < 2; p++) {
            compare_peer(PEERS + p, &peers[p], &r);
        }
    }
    printf("  the library, %s, on each of its engines: %lu compared %lu differ; %lu of them of %d bytes and more\n", variant_name(),
        tally[ARCHIVE].compared, tally[ARCHIVE].differ, batches, BATCH);
    for (int p = 0; p < 2; p++) {
        printf("  %s %s: %lu compared %lu differ\n", peers[p].name, peers[p].version(), tally[PEERS + p].compared,
            tally[PEERS + p].differ);
    }
    print_paddings();
    printf("  12-byte IVs, the library against libgcrypt: %lu of those, %lu sealed %lu opened %lu refused\n",
        twelve.sealed + twelve.opened + twelve.refused, twelve.sealed, twelve.opened, twelve.refused);
    printf("  asked again with the key retired: %lu of those, %lu not encrypted %lu decrypted %lu refused as before\n",
        again.stopped + again.decrypted + again.refused, again.stopped, again.decrypted, again.refused);
    printf("  a counter came round in %lu answers of the library\n", came_round);
    for (int side = 0; side < SIDES; side++) {
        differ += tally[side].differ;
    }
    if (differ != 0) {
        printf("the smallest case that differs:\n%s", smallest);
    }
    return differ != 0;
}
