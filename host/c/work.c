/* The work that is counted: a message of SIZE bytes, encrypted or decrypted TIMES times.
 *
 *   work library|once|twelve|libgcrypt|OpenSSL MODE encrypt|decrypt SIZE TIMES
 *   work pieces MODE encrypt|decrypt SIZE TIMES PIECE
 *   work range 2 encrypt|decrypt SIZE TIMES OFFSET
 *   work which 4 decrypt SIZE TIMES LABELS
 *   work block 0 encrypt|decrypt 16 TIMES
 *   work join 4 encrypt SIZE TIMES BLOCKS
 *   work hash 4 encrypt SIZE TIMES
 *   work version libgcrypt|OpenSSL
 *   work tables ..        the library on the engine of four tables, in all but the last three
 *   work gates ..         on that of gates
 *   work plain ..         on the plain one; without any of these words the library chooses
 *   work timed ..         prints how many million bytes a second of the processor's time it is, the best of some runs; what the library
 *                         makes is compared before that, and exit status 1 says that it is another
 *
 * Each message has its key set up anew; of `once`, which is the library too, one set-up serves all of them, and of `twelve`, which is
 * Gcm under an IV of 12 bytes. All others have one of 16. MODE is
 * 0 to 4. In pieces of PIECE bytes, by the library, it is 2, or 4: sealing, or opening without the text. A range of
 * a message, from OFFSET on, is Ctr's alone, and one set-up serves all. Of a file which label it opens under is asked with
 * LABELS of six bytes, up to 64, of which none opens it. A join is of two hashes, the second of BLOCKS blocks, whatever
 * SIZE is; a hash is of SIZE bytes. A single block is of no mode. Exit status 3 where the library does not have the mode.
 */
#define _POSIX_C_SOURCE 200809L

#include "calls.h"
#include "peers.h"

#include <stdio.h>
#include <stdlib.h>
#include <string.h>
#include <time.h>

static const uint8_t key[16] = {1, 35, 69, 103, 137, 171, 205, 239, 254, 220, 186, 152, 118, 84, 50, 16};
static const uint8_t iv[16] = {7};

/* What runs, of the words after the first. The last of them is the length of a piece, where a range starts, how many
 * labels are asked about, or how many blocks the second of two hashes is of. */
struct task {
    int mode, direction, times;
    size_t size, last;
};

/* A message's work. Whether it is done. */
typedef int work(const struct task *t, struct field data, uint8_t *out, size_t room);

/* The key's record, which `once` keeps. */
static struct luossavin_key record;

static uint32_t engine;

/* How many bytes of the IV a message has. */
static size_t iv_length = sizeof iv;

static void set_up_key(void)
{
    record = luossavin_key_engine(luossavin_key_new(key, sizeof key, 1), engine);
}

static int once(const struct task *t, struct field data, uint8_t *out, size_t room)
{
    return (t->direction == ENCRYPT ? luossavin_encrypt : luossavin_decrypt)(
        t->mode, record, NULL, 0, data.bytes, data.length, iv, iv_length, out, room).number == 0;
}

static int library(const struct task *t, struct field data, uint8_t *out, size_t room)
{
    set_up_key();
    return once(t, data, out, room);
}

static int in_pieces(const struct task *t, struct field data, uint8_t *out, size_t room)
{
    struct given given = {.iv = iv, .iv_len = sizeof iv};
    enum kind kind = t->mode == CTR ? COUNTING : t->direction == ENCRYPT ? SEALING : OPENING;
    size_t text = kind == OPENING ? data.length - 16 : data.length, by = t->last;
    struct state s;
    struct luossavin_answer a;
    set_up_key();
    given.key = record;
    a = call_start(kind, &s, &given);
    for (size_t i = 0; a.number == 0 && i < text; i += by) {
        a = call_piece(&s, data.bytes + i, text - i < by ? text - i : by, out + i, room - i);
    }
    if (a.number == 0) {
        a = kind == OPENING ? call_end(&s, (uint8_t *)data.bytes + text, 16) : call_end(&s, out + text, room - text);
    }
    return a.number == 0;
}

static int range(const struct task *t, struct field data, uint8_t *out, size_t room)
{
    return luossavin_ctr_range(
        record, t->direction == DECRYPT, iv, 16, t->last, data.bytes, data.length, out, room).number == 0;
}

static int which(const struct task *t, struct field data, uint8_t *out, size_t room)
{
    static const uint8_t labels[64 * 6] = {1};
    static const size_t lengths[64] = {[0 ... 63] = 6};
    struct luossavin_found f = luossavin_which(
        record, data.bytes, data.length, iv, 16, labels, 6 * t->last, lengths, t->last);
    (void)out;
    (void)room;
    return f.answer.number == 0 && f.found == 0;
}

static int block(const struct task *t, struct field data, uint8_t *out, size_t room)
{
    return (t->direction == ENCRYPT ? luossavin_block_encrypt : luossavin_block_decrypt)(record, data.bytes, data.length, out, room).number == 0;
}

static int join(const struct task *t, struct field data, uint8_t *out, size_t room)
{
    static struct luossavin_hash y = {0x66e94bd4ef8a2c3b, 0x884cfa59ca342b2e};
    (void)data;
    (void)out;
    (void)room;
    y = luossavin_hash_join((struct luossavin_hash){1, 2}, y, (struct luossavin_hash){3, 4}, t->last);
    return 1;
}

static int hash(const struct task *t, struct field data, uint8_t *out, size_t room)
{
    static struct luossavin_hash y = {0x66e94bd4ef8a2c3b, 0x884cfa59ca342b2e};
    (void)t;
    (void)out;
    (void)room;
    y = luossavin_hash_blocks(y, data.bytes, data.length);
    return 1;
}

static const struct peer *peer;

static int by_peer(const struct task *t, struct field data, uint8_t *out, size_t room)
{
    const struct field the_iv = {iv, sizeof iv}, no_label = {NULL, 0};
    (void)room;
    return peer->run(t->mode, t->direction, key, the_iv, no_label, data, out) == DONE;
}

static const struct peer *peer_named(const char *who)
{
    for (int i = 0; i < 2; i++) {
        if (strcmp(who, peers[i].name) == 0) {
            return &peers[i];
        }
    }
    fprintf(stderr, "work: no library '%s'\n", who);
    exit(64);
}

static work *work_of(const char *who)
{
    if (strcmp(who, "library") == 0) {
        return library;
    }
    if (strcmp(who, "once") == 0) {
        return once;
    }
    if (strcmp(who, "twelve") == 0) {
        iv_length = 12;
        return once;
    }
    if (strcmp(who, "pieces") == 0) {
        return in_pieces;
    }
    if (strcmp(who, "range") == 0) {
        return range;
    }
    if (strcmp(who, "which") == 0) {
        return which;
    }
    if (strcmp(who, "block") == 0) {
        return block;
    }
    if (strcmp(who, "join") == 0) {
        return join;
    }
    if (strcmp(who, "hash") == 0) {
        return hash;
    }
    peer = peer_named(who);
    return by_peer;
}

static int times(work *one, const struct task *t, struct field data, uint8_t *out, size_t room)
{
    for (int i = 0; i < t->times; i++) {
        if (!one(t, data, out, room)) {
            return 3;
        }
    }
    return 0;
}

/* The same some times over, and the best of their times, of which what other programs take is no part. */
static int timed(work *one, const struct task *t, struct field data, uint8_t *out, size_t room)
{
    double best = 0;
    int status = 0;
    for (int i = 0; i < 9 && status == 0; i++) {
        struct timespec from, to;
        double seconds;
        clock_gettime(CLOCK_PROCESS_CPUTIME_ID, &from);
        status = times(one, t, data, out, room);
        clock_gettime(CLOCK_PROCESS_CPUTIME_ID, &to);
        seconds = (double)(to.tv_sec - from.tv_sec) + 1e-9 * (double)(to.tv_nsec - from.tv_nsec);
        best = i == 0 || seconds < best ? seconds : best;
    }
    if (status == 0) {
        printf("%.1f\n", 1e-6 * (double)t->size * t->times / best);
    }
    return status;
}

/* Whether the library's result is right: what it encrypts, or has encrypted to be decrypted, is what libgcrypt encrypts; and what it
 * decrypts is the text, all zeros. */
static int is_right(const struct task *t, struct field data, uint8_t *out, size_t room)
{
    const struct field the_iv = {iv, sizeof iv}, no_label = {NULL, 0};
    uint8_t *zeros = calloc(1, room), *beside = malloc(room + 16);
    size_t n = t->mode == GCM ? t->size + 16 : t->mode == CBC ? t->size / 16 * 16 + 16 : t->size;
    struct field text = {zeros, t->mode == CBC ? n : t->size};
    int right = zeros != NULL && beside != NULL && once(t, data, out, room);
    if (right && t->direction == DECRYPT) {
        right = memcmp(out, zeros, t->size) == 0;
    }
    if (right) {
        /* libgcrypt leaves Cbc's padding to its caller */
        memset(zeros + t->size, t->mode == CBC ? (int)(n - t->size) : 0, room - t->size);
        right = peers[0].run(t->mode, ENCRYPT, key, the_iv, no_label, text, beside) == DONE
            && memcmp(t->direction == ENCRYPT ? out : data.bytes, beside, n) == 0;
    }
    free(zeros);
    free(beside);
    return right;
}

static int run(work *one, const struct task *t, int is_timed)
{
    size_t room = t->size + 16;
    uint8_t *text = calloc(1, room), *out = malloc(room);
    struct field data = {text, t->size};
    if (text == NULL || out == NULL) {
        return 64;
    }
    set_up_key();
    if (t->direction == DECRYPT) {
        /* something to open, made by the library, whoever opens it */
        struct task sealing = *t;
        sealing.direction = ENCRYPT;
        if (!once(&sealing, data, out, room)) {
            return 1;
        }
        memcpy(text, out, room);
        data.length = t->mode == CBC || t->mode == GCM ? room : t->size;
    }
    if (is_timed && (one == library || one == once) && !is_right(t, data, out, room)) {
        return 1;
    }
    return (is_timed ? timed : times)(one, t, data, out, room);
}

/* Whether the words after the first make a task. */
static int is_task(const char *who, const struct task *t)
{
    if (t->times == 0 || t->mode < CFB || t->mode > GCM) {
        return 0;
    }
    if (strcmp(who, "pieces") == 0) {
        return t->last != 0 && (t->mode == CTR || t->mode == GCM);
    }
    if (strcmp(who, "which") == 0) {
        return t->last <= 64 && t->mode == GCM && t->direction == DECRYPT;
    }
    return strcmp(who, "range") != 0 || t->mode == CTR;
}

/* Whether the first word is that. It is then passed over. */
static int first_word(int *argc, char ***argv, const char *word)
{
    int is = *argc > 2 && strcmp((*argv)[1], word) == 0;
    *argc -= is;
    *argv += is;
    return is;
}

/* The engine that the first word asks for, which is then passed over. Without such a word the library chooses. */
static uint32_t take_engine(int *argc, char ***argv)
{
    static const char *const words[] = {[1] = "tables", "gates", "plain"};
    for (uint32_t i = 1; i <= 3; i++) {
        if (first_word(argc, argv, words[i])) {
            return i;
        }
    }
    return 0;
}

int main(int argc, char **argv)
{
    struct task t = {0};
    int is_timed = first_word(&argc, &argv, "timed");
    start_peers();
    engine = take_engine(&argc, &argv);
    if (argc == 3 && strcmp(argv[1], "version") == 0) {
        puts(peer_named(argv[2])->version());
        return 0;
    }
    if (argc == 6 || argc == 7) {
        t.mode = atoi(argv[2]);
        t.direction = strcmp(argv[3], "decrypt") == 0 ? DECRYPT : ENCRYPT;
        t.size = strtoul(argv[4], NULL, 10);
        t.times = atoi(argv[5]);
        t.last = argc == 7 ? strtoul(argv[6], NULL, 10) : 0;
    }
    if (!is_task(argv[1], &t)) {
        fprintf(stderr, "usage: work library|once|libgcrypt|OpenSSL MODE encrypt|decrypt SIZE TIMES, or work pieces 2|4 "
            "encrypt|decrypt SIZE TIMES PIECE, or work range 2 encrypt|decrypt SIZE TIMES OFFSET, or work which 4 decrypt "
            "SIZE TIMES LABELS, or work block 0 encrypt|decrypt 16 TIMES, or work join 4 encrypt SIZE TIMES BLOCKS, or work hash 4 encrypt SIZE TIMES, or work version "
            "libgcrypt|OpenSSL; or work tables, gates or plain and any but the last three, or work timed and any but the last\n");
        return 64;
    }
    return run(work_of(argv[1]), &t, is_timed);
}
