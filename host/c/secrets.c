/* Every call on a key, with secrets of one's choice, for host/secrets to watch.
 *
 *   secrets ENGINE SECRETS [short]
 *
 * Key, label and text are zeros for SECRETS 0, all ones for 1, and drawn for 2 to 9; all else, lengths and IVs among it, is the
 * same, and so is every number that is answered. A part that is watched stands between `from_here` and `to_here`, and its name
 * is printed before it. Under valgrind the secrets are marked as undefined, and with them all that comes of them; what a call
 * answers is made defined again, since it is shown. Only texts of up to 100 bytes where it is to be short. Exit status 2 if a
 * call does not answer what is due.
 */
#include "secrets.h"

#include "random.h"

#include <stdarg.h>
#include <stdio.h>
#include <stdlib.h>
#include <string.h>
#include <valgrind/memcheck.h>

unsigned which_secrets;
uint8_t key_bytes[16], label[LABEL], text[MOST], out[MOST + 16], back[MOST + 16];
const uint8_t iv[16] = "sixteen bytes!!";
struct luossavin_key key;

/* On the gates one group of sixteen blocks up to 256 bytes, two to four up to 1,024, and from 3,072 on large batches; hashes are interleaved from 256 bytes
 * on, and more of them from 1,536 on. */
static const size_t all_lengths[] = {
    0, 1, 16, 17, 64, 100, 256, 300, 495, 1000, 1024, 1536 + 9, 2048 + 31, 3072 + 5, 4096 + 5, 8192, 16384 + 16, MOST};
const size_t *lengths = all_lengths;
size_t lengths_count = sizeof all_lengths / sizeof *all_lengths;

void make_secret(void *bytes, size_t count)
{
    (void)VALGRIND_MAKE_MEM_UNDEFINED(bytes, count);
}

void make_known(void *bytes, size_t count)
{
    (void)VALGRIND_MAKE_MEM_DEFINED(bytes, count);
}

/* The two places between which the plugin looks. */

__attribute__((noinline)) void from_here(void)
{
    __asm__ volatile("" ::: "memory");
}

__attribute__((noinline)) void to_here(void)
{
    __asm__ volatile("" ::: "memory");
}

static char name[200];
static unsigned reports, now_does;

/* Whether tables are looked up in the part that is watched. */
static int looks_up(void)
{
    return key.engine == TABLES || key.engine == PLAIN || (key.engine == CHOSEN && now_does & WAITS);
}

void watch(unsigned does, const char *format, ...)
{
    va_list words;
    va_start(words, format);
    vsnprintf(name, sizeof name, format, words);
    va_end(words);
    now_does = does;
    printf("%u %s\n", does, name);
    VALGRIND_PRINTF("part: %u %s\n", does, name);
    reports = (unsigned)VALGRIND_COUNT_ERRORS;
    from_here();
}

void is_done(void)
{
    to_here();
    VALGRIND_PRINTF("part: over, %u\n", (unsigned)VALGRIND_COUNT_ERRORS - reports);
}

void is_answered(struct luossavin_answer *a, uint32_t due)
{
    is_done();
    make_known(a, sizeof *a);
    if (a->number != due) {
        fprintf(stderr, "secrets: %s: it answers %u\n", name, a->number);
        exit(2);
    }
}

void stays_secret(const uint8_t *bytes, size_t count)
{
    uint8_t marks[MOST + 16];
    if (looks_up() || VALGRIND_GET_VBITS(bytes, marks, count) != 1) {
        return;
    }
    for (size_t i = 0; i < count; i++) {
        if (marks[i] != 0xff) {
            fprintf(stderr, "secrets: %s: byte %zu is no longer marked\n", name, i);
            exit(2);
        }
    }
}

/* A key is set up, marked and retired: the record is secret, and its marks are known. */
static void make_key(uint32_t engine)
{
    struct luossavin_key retired;
    watch(NEITHER, "a key is set up");
    key = luossavin_key_new(key_bytes, sizeof key_bytes, NUMBER);
    is_done();
    watch(NEITHER, "a key is retired");
    retired = luossavin_key_retire(key);
    is_done();
    watch(NEITHER, "a key is given an engine");
    key = luossavin_key_engine(key, engine);
    is_done();
    if (key.answer != 0 || retired.retired != 1) {
        fprintf(stderr, "secrets: no key\n");
        exit(2);
    }
}

static void blocks(void)
{
    struct luossavin_answer a;
    watch(ROUNDS | WAITS, "a block, encrypted");
    a = luossavin_block_encrypt(key, text, 16, out, 16);
    is_answered(&a, 0);
    watch(ROUNDS | WAITS, "a block, decrypted");
    a = luossavin_block_decrypt(key, text, 16, out, 16);
    is_answered(&a, 0);
}

/* Both ways. That Gcm and Cbc come back is an answer: the tag is right, or the padding is. What comes back is secret, also where a table was looked up for
 * it. */
static void message(uint32_t mode, size_t iv_len, size_t n)
{
    static const char *const modes[] = {"Cfb", "Ofb", "Ctr", "Cbc", "Gcm"};
    unsigned answers = mode == CBC || mode == GCM ? ANSWERS : 0, rounds = n > 0 || answers ? ROUNDS : PERHAPS_ROUNDS;
    unsigned there = mode == CFB || mode == OFB || mode == CBC ? WAITS : 0, back_again = mode == OFB ? WAITS : 0;
    struct luossavin_answer a;
    watch(rounds | there, "%s, %zu bytes, an IV of %zu, encrypted", modes[mode], n, iv_len);
    a = luossavin_encrypt(mode, key, label, sizeof label, text, n, iv, iv_len, out, sizeof out);
    is_answered(&a, 0);
    stays_secret(out, a.length);
    make_secret(out, a.length);
    watch(rounds | answers | back_again, "%s, %zu bytes, an IV of %zu, decrypted", modes[mode], n, iv_len);
    a = luossavin_decrypt(mode, key, label, sizeof label, out, a.length, iv, iv_len, back, sizeof back);
    is_answered(&a, 0);
}

static void messages(void)
{
    for (size_t i = 0; i < lengths_count; i++) {
        for (uint32_t mode = CFB; mode <= GCM; mode++) {
            message(mode, 16, lengths[i]);
        }
        message(GCM, 12, lengths[i]);
    }
}

/* The secrets, of which those that are drawn differ from run to run. */
static void make_secrets(void)
{
    seed = which_secrets;
    memset(key_bytes, which_secrets == 1 ? 0xff : 0, sizeof key_bytes);
    memset(label, which_secrets == 1 ? 0xff : 0, sizeof label);
    memset(text, which_secrets == 1 ? 0xff : 0, sizeof text);
    if (which_secrets > 1) {
        draw_bytes(key_bytes, sizeof key_bytes);
        draw_bytes(label, sizeof label);
        draw_bytes(text, sizeof text);
    }
    make_secret(key_bytes, sizeof key_bytes);
    make_secret(label, sizeof label);
    make_secret(text, sizeof text);
}

int main(int argc, char **argv)
{
    if (argc < 3 || strlen(argv[1]) != 1 || strlen(argv[2]) != 1) {
        fprintf(stderr, "usage: secrets ENGINE SECRETS [short]\n");
        return 64;
    }
    which_secrets = (unsigned)atoi(argv[2]);
    while (argc > 3 && lengths[lengths_count - 1] > 100) {
        lengths_count--;
    }
    make_secrets();
    make_key((uint32_t)atoi(argv[1]));
    blocks();
    messages();
    in_pieces();
    in_ranges();
    answers();
    replays();
    hashes();
    return 0;
}
