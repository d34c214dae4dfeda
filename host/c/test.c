/* The library called from C, and held to what the header says, which is written down again in rules.c and the models.
 *
 *   test             on plain buffers, on each engine (host/smoke)
 *   test --chosen    the same, with the tests on a key on the engine that is chosen alone (host/smoke under an emulator)
 *   test --fenced    the same calls, every buffer against a page that may be neither read nor written, first behind its end and then before
 *                    its start, inputs that may not be written, and lengths at the limits (host/faults)
 *   test --heap      fewer of them on buffers from malloc, for valgrind (host/faults)
 *
 * Every part of an answer, every byte of the output and the inputs after a call are looked at. IVs of 16 bytes are mostly such that a
 * counter comes round in a text of some blocks, and not in a shorter one. Prints what is wrong, and how much was checked; exit status 1 if
 * anything is.
 */
#define _DEFAULT_SOURCE

#include "test.h"

#include "variant.h"
#include "wrap.h"

#include <signal.h>
#include <stdio.h>
#include <stdlib.h>
#include <string.h>
#include <unistd.h>

/* The fields of an answer that `difference` looks at; how much is printed at most; and the seconds after which a test is taken not
 * to end, under the emulator too. */
enum { ANSWER_FIELDS = 5, MOST_PRINTED = 20, WORDS = 500, PATIENCE = 3600 };

int with_limits, is_sparse, in_turn;
unsigned long calls, calls_for[NUMBERS], came_round;
static unsigned long checked, wrong;
struct buffer one, two;

const uint8_t key_bytes[17] = {1, 2, 3, 4, 5, 6, 7, 8, 9, 10, 11, 12, 13, 14, 15, 16, 17};
struct luossavin_key key;
const uint8_t iv[17] = {16, 15, 14, 13, 12, 11, 10, 9, 8, 7, 6, 5, 4, 3, 2, 1, 0};
const uint8_t label[6] = {0, 0, 0, 7, 0, 2};
const uint8_t too_long[LIMIT + 1];
const size_t iv_lengths[IVS] = {0, 1, 11, 12, 13, 14, 15, 16, 17, 32};

const struct holder sound = {0, NUMBER, 0}, old = {0, NUMBER, 1}, none = {1, 0, 0}, unnumbered = {13, 0, 0};
const struct holder holders[HOLDERS] = {{0, 1, 0}, {0, 65535, 1}, {0, 0, 2}, {0, 256, 255}, {1, 0, 0}, {13, 0, 0},
    {13, 9, 1}, {7, 65535, 0}, {0xffffffff, 1, 1}};

/* Checks. */

static void describe_nothing(char *words, size_t room)
{
    snprintf(words, room, "a call that is made by hand");
}

void (*describe)(char *words, size_t room) = describe_nothing;

void check(int holds, const char *what, const char *where, size_t n)
{
    checked++;
    if (!holds && ++wrong <= MOST_PRINTED) {
        printf("wrong: %s, %s (%zu)\n", what, where, n);
    }
}

int holds_now(const char *is_wrong)
{
    char words[WORDS];
    checked++;
    if (is_wrong != NULL && ++wrong <= MOST_PRINTED) {
        describe(words, sizeof words);
        printf("wrong: %s: %s\n", is_wrong, words);
    }
    return is_wrong == NULL;
}

int judged(uint32_t due, const char *is_wrong)
{
    calls++;
    calls_for[due]++;
    return holds_now(is_wrong);
}

int judge(struct luossavin_answer got, struct luossavin_answer due)
{
    came_round += due.came_round;
    checked += ANSWER_FIELDS - 1;
    return judged(due.number, difference(got, due));
}

int wrote_only(struct buffer out, size_t length)
{
    return holds_now(untouched(out, length) ? NULL : "it writes past its length");
}

int kept(struct buffer input)
{
    return holds_now(holds_fill(input) ? NULL : "it changes an input");
}

int done(struct luossavin_answer a, size_t length)
{
    return difference(a, (struct luossavin_answer){.key = NUMBER, .length = length}) == NULL;
}

void answered(struct luossavin_answer a, struct luossavin_answer due, const char *what)
{
    const char *is_wrong = difference(a, due);
    checked += ANSWER_FIELDS - 1;
    check(is_wrong == NULL, what, is_wrong ? is_wrong : "right", a.number);
    check(untouched(one, due.length), what, "its output", a.length);
}

void refused(struct luossavin_answer a, uint32_t number, const char *what)
{
    int has_no_key = number == 7 || number == 1 || number == 13;
    answered(a, (struct luossavin_answer){.number = number, .key = has_no_key ? 0 : NUMBER}, what);
}

/* The program is lost, so what printf needs is not missed. */
static void on_signal(int signal)
{
    holds_now(signal == SIGALRM ? "it does not end" : signal == SIGSEGV || signal == SIGBUS ? "it touches memory that it was not lent"
        : "it crashes");
    fflush(stdout);
    _exit(1);
}

/* Records. */

struct luossavin_key record(struct holder fields)
{
    return holding(luossavin_key_engine(key, in_turn ? calls % ENGINES : key.engine), fields);
}

void every_record(void (*what)(struct holder fields))
{
    static const uint32_t answers[] = {0, 1, 13, 7, 0xffffffff};
    static const uint16_t numbers[] = {0, 1, 65535};
    static const uint8_t marks[] = {0, 1, 2, 255};
    for (int a = 0; a < 5; a++) {
        for (int n = 0; n < 3; n++) {
            for (int m = 0; m < 4; m++) {
                what((struct holder){answers[a], numbers[n], marks[m]});
            }
        }
    }
}

/* What is lent beside data. */

uint32_t before_wrap = 1;

void near_wrap(uint32_t mode, uint8_t iv[16])
{
    static uint8_t gcm[16];
    static uint32_t made_for = UINT32_MAX;
    if (mode != GCM) {
        iv_near_ctr_wrap(iv, before_wrap);
        return;
    }
    if (made_for != before_wrap) {
        memset(gcm, 0x5a, 16);
        iv_near_gcm_wrap(key, gcm, before_wrap);
        made_for = before_wrap;
    }
    memcpy(iv, gcm, 16);
}

struct beside lend_beside(uint32_t mode, size_t iv, size_t label)
{
    struct beside b = {.iv = lend_input(iv, iv), .label = lend_input(label, LIMIT)};
    if (iv == 16) {
        near_wrap(mode, b.iv.bytes);
    }
    memcpy(b.kept_iv, b.iv.bytes, iv);
    shut(b.iv);
    shut(b.label);
    return b;
}

void take_back(struct beside b)
{
    holds_now(memcmp(b.kept_iv, b.iv.bytes, b.iv.length) == 0 && holds_fill(b.label) ? NULL : "it changes an input");
    give_back(b.iv);
    give_back(b.label);
}

/* The program. */

/* The tests on the key as it stands, with its engine. */
static void (*const on_key[])(void) = {whole_messages, paddings, keys, pieces, which, editions, rounds, workers, NULL};

/* Those of any size, on the engines in turn, and those without a key of their own. */
static void (*const of_any_size[])(void) = {whole_messages_of_any_size, keys_of_any_size, pieces_of_any_size, which_of_any_size,
    editions_of_any_size, workers_of_any_size, shelves, journals, halves, NULL};

/* Those in plain memory alone. */
static void (*const in_plain_memory[])(void) = {engines, long_messages, stack, wiping, NULL};

static void run_each(void (*const tests[])(void))
{
    for (size_t i = 0; tests[i] != NULL; i++) {
        describe = describe_nothing;
        alarm(PATIENCE);
        tests[i]();
    }
}

/* On buffers from there, with calls on a key on the first `count` engines. */
static void run(enum place from, uint32_t count)
{
    place = from;
    one = lend(ROOM, LENT);
    two = lend(ROOM, LENT);
    for (uint32_t engine = CHOSEN; engine < count; engine++) {
        key = luossavin_key_engine(luossavin_key_new(key_bytes, 16, NUMBER), engine);
        run_each(on_key);
    }
    in_turn = 1;
    run_each(of_any_size);
    in_turn = 0;
    check(kept_is_whole(), "an input that is kept", "it changes", 0);
    give_back(one);
    give_back(two);
}

int main(int argc, char **argv)
{
    const char *option = argc == 2 ? argv[1] : "";
    int fenced = strcmp(option, "--fenced") == 0, heap = strcmp(option, "--heap") == 0, chosen = strcmp(option, "--chosen") == 0;
    static const int signals[] = {SIGSEGV, SIGBUS, SIGILL, SIGFPE, SIGABRT, SIGALRM};
    if (argc > 1 && !fenced && !heap && !chosen) {
        fprintf(stderr, "usage: test [--chosen | --fenced | --heap]\n");
        return 64;
    }
    for (size_t i = 0; i < sizeof signals / sizeof *signals; i++) {
        signal(signals[i], on_signal);
    }
    with_limits = fenced;
    is_sparse = heap;
    if (fenced) {
        run(FENCE_BEHIND, 1);
        run(FENCE_BEFORE, 1);
    } else if (heap) {
        run(HEAP, 1);
    } else {
        run(PLAIN_MEMORY, chosen ? CHOSEN + 1 : ENGINES);
        run_each(in_plain_memory);
    }
    printf("%lu checked, %lu wrong, on %s; %lu calls by the rules, in %lu a counter comes round\n", checked, wrong, variant_name(), calls,
        came_round);
    printf("by number:");
    for (int number = 0; number < NUMBERS; number++) {
        printf(" %d: %lu%s", number, calls_for[number], number == NUMBERS - 1 ? "\n" : ",");
    }
    return wrong != 0;
}
