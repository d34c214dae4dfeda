/* The stack: how much of it a call takes, and what of a key is left there and wiped. Each call runs on a stack of its own, all of which
 * holds one byte before; what holds another afterwards was taken. The header says how much that is at most. Then round keys and the
 * states' secrets are marked words, which the stack is looked through for. And versions and names. */
#define _GNU_SOURCE

#include "test.h"

#include "journal_model.h"
#include "prepared.h"

#include <stdio.h>
#include <string.h>
#include <ucontext.h>

enum { OWN_STACK = 1 << 18, PER_CALL = 48 << 10, PER_REPLAY = 64 << 10, MARKS = 32, SHORT = 100, LONG = 16384 };

static _Alignas(16) uint8_t own_stack[OWN_STACK];
static struct luossavin_key on;
static uint32_t mode;
static uint8_t text[LONG + 16], out[LONG + 16], journal[2 * LONG + 100];
static size_t journal_size;
static struct luossavin_ctr ctr;
static struct luossavin_seal seal;
static struct luossavin_opens opens;

static void on_own_stack(void (*call)(void))
{
    static ucontext_t here, there;
    memset(own_stack, LENT, OWN_STACK);
    getcontext(&there);
    there.uc_stack.ss_sp = own_stack;
    there.uc_stack.ss_size = OWN_STACK;
    there.uc_link = &here;
    makecontext(&there, call, 0);
    swapcontext(&here, &there);
}

/* The calls. */

static void set_up_key(void)
{
    on = luossavin_key_new(key_bytes, 16, NUMBER);
}

/* Each call that takes a record, from a function that holds it and wipes it. */
static __attribute__((noinline)) void calls_by_value(void)
{
    const size_t length = sizeof label;
    struct luossavin_key k = on;
    struct luossavin_keys keys = {.count = 1, .keys = {k}};
    struct luossavin_answer a;
    for (uint32_t m = CFB; m <= GCM; m++) {
        a = luossavin_encrypt(m, k, label, length, text, LONG, iv, 16, out, sizeof out);
        prepared(a);
        prepared(luossavin_decrypt(m, k, label, length, out, a.length, iv, 16, text, sizeof text));
    }
    prepared(luossavin_block_encrypt(k, text, 16, out, 16));
    prepared(luossavin_block_decrypt(k, text, 16, out, 16));
    prepared(luossavin_ctr_range(k, false, iv, 16, 5, text, LONG, out, LONG));
    prepared(luossavin_ctr_by_plan(k, false, iv, 16, luossavin_plan_make(LONG, 64).plan, text, LONG, out, LONG));
    prepared(luossavin_which(k, out, LONG, iv, 16, label, length, &length, 1).answer);
    prepared(luossavin_edition_seal(k, 7, 2, text, LONG, iv, 16, out, sizeof out));
    prepared(luossavin_edition_opens(k, 7, 2, out, sizeof out, iv, 16));
    prepared(luossavin_edition_open(k, 7, 2, out, sizeof out, iv, 16, text, sizeof text));
    prepared(luossavin_record(false, GCM, NUMBER, label, length, text, 4096, iv, 16, 4096, 0, NULL, 0, out, sizeof out));
    check(luossavin_hash_blocks((struct luossavin_hash){0, 0}, text, LONG).high == 0, "a hash under 0", "on a stack of its own", 0);
    check(luossavin_replay(keys, NULL, 0).number == 0, "a replay", "on a stack of its own", 0);
    k = luossavin_key_engine(luossavin_key_retire(k), k.engine);
    luossavin_wipe(&k, sizeof k);
    luossavin_wipe(&keys, sizeof keys);
}

static void start_states(void)
{
    struct luossavin_key k = on;
    ctr = luossavin_ctr_start(k, false, iv, 16).state;
    seal = luossavin_seal_start(k, label, sizeof label, iv, 16).state;
    opens = luossavin_opens_start(k, label, sizeof label, iv, 16).state;
    luossavin_wipe(&k, sizeof k);
}

/* Pieces on states that are not on the stack: nothing of them is to come there but into the library's own part. */
static void calls_by_reference(void)
{
    prepared(luossavin_ctr_add(&ctr, text, SHORT, out, SHORT));
    prepared(luossavin_ctr_add(&ctr, text, LONG, out, LONG));
    prepared(luossavin_ctr_finish(&ctr));
    prepared(luossavin_seal_add(&seal, text, SHORT, out, SHORT));
    prepared(luossavin_seal_add(&seal, text, LONG, out, LONG));
    prepared(luossavin_seal_finish(&seal, out, 16));
    prepared(luossavin_opens_add(&opens, text, LONG));
    check(luossavin_opens_finish(&opens, out, 16).number == LUOSSAVIN_INVALID_TAG, "no such tag", "opening", 0);
}

static void replay(void)
{
    const struct luossavin_keys keys = {.count = 1, .keys = {on}};
    check(luossavin_replay(keys, journal, journal_size).records == 1, "a replay", "on a stack of its own", mode);
}

/* How much they take. What the caller puts there is among it: the record, which goes by value. */

static size_t more_of(size_t most, void (*call)(void))
{
    size_t free = 0;
    on_own_stack(call);
    while (free < OWN_STACK && own_stack[free] == LENT) {
        free++;
    }
    return most > OWN_STACK - free ? most : OWN_STACK - free;
}

/* The most of what the calls on an engine take, and of what a replay of a call does. */
static void takes_on_engine(uint32_t engine)
{
    struct entry e = {.key = NUMBER, .data = {text, LONG}, .iv = {iv, 16}, .room = sizeof out};
    size_t most = more_of(0, set_up_key), replayed = 0;
    on = luossavin_key_engine(on, engine);
    most = more_of(most, calls_by_value);
    most = more_of(most, start_states);
    most = more_of(most, calls_by_reference);
    for (mode = CFB; mode <= GCM; mode++) {
        e.mode = (uint8_t)mode;
        e = answered_on(e, on);
        journal_size = write_entry(&e, journal);
        replayed = more_of(replayed, replay);
    }
    check(most < PER_CALL, "how much a call takes", "the stack", most);
    check(replayed < PER_REPLAY, "how much a replay takes", "the stack", replayed);
    printf("of the stack, on engine %u: %zu bytes, and a replay %zu\n", engine, most, replayed);
}

void stack(void)
{
    for (uint32_t engine = CHOSEN; engine < ENGINES; engine++) {
        takes_on_engine(engine);
    }
}

/* What is left of a key. */

static uint32_t mark(uint32_t i)
{
    return 0x5ec7e700u + i;
}

static void fill_with_marks(void *bytes, size_t size)
{
    for (size_t i = 0; i < size / 4; i++) {
        uint32_t word = mark(i % MARKS);
        memcpy((uint8_t *)bytes + 4 * i, &word, 4);
    }
}

/* How many marked words stand on the stack, in either order of their bytes. */
static size_t marks_left(void)
{
    size_t found = 0;
    for (size_t at = 0; at + 4 <= OWN_STACK; at++) {
        uint32_t word;
        memcpy(&word, own_stack + at, 4);
        found += word - mark(0) < MARKS || __builtin_bswap32(word) - mark(0) < MARKS;
    }
    return found;
}

static void mark_states(void)
{
    start_states();
    fill_with_marks(&ctr, offsetof(struct luossavin_ctr, total));
    fill_with_marks(&seal, offsetof(struct luossavin_seal, label));
    fill_with_marks(&opens, offsetof(struct luossavin_opens, label));
}

static void by_value_and_wiped(void)
{
    calls_by_value();
    luossavin_wipe_stack();
}

/* In the function itself: the helpers leave nothing there. */
static void by_reference_and_wiped(void)
{
    calls_by_reference();
    luossavin_wipe_stack();
}

static void left_on_engine(uint32_t engine)
{
    size_t by_value, by_reference;
    on = (struct luossavin_key){.number = NUMBER, .engine = (uint8_t)engine};
    fill_with_marks(on.round_keys, sizeof on.round_keys);
    on_own_stack(calls_by_value);
    by_value = marks_left();
    check(by_value > 0, "marks are found where nobody wipes the stack", "by value", by_value);
    on_own_stack(by_value_and_wiped);
    check(marks_left() == 0, "no mark is left", "by value", marks_left());
    mark_states();
    on_own_stack(calls_by_reference);
    by_reference = marks_left();
    check(by_reference > 0, "marks are found where nobody wipes the stack", "by reference", by_reference);
    mark_states();
    on_own_stack(by_reference_and_wiped);
    check(marks_left() == 0, "no mark is left", "by reference", marks_left());
    printf("on the stack, on engine %u: %zu words of round keys after calls, %zu of states after pieces, and none once it is wiped\n",
        engine, by_value, by_reference);
}

/* A wipe that no later use asks for; of nothing; and of part of a buffer. */
static void wipes(void)
{
    uint8_t bytes[40];
    memset(bytes, LENT, sizeof bytes);
    luossavin_wipe(bytes + 1, 38);
    luossavin_wipe(NULL, 0);
    for (size_t i = 0; i < sizeof bytes; i++) {
        check(bytes[i] == (i == 0 || i == 39 ? LENT : 0), "a byte", "wiped", i);
    }
}

static void names(void)
{
    check(strcmp(luossavin_version(), LUOSSAVIN_VERSION) == 0, "the library's version", "the header's", 0);
    check(strcmp(luossavin_refusal_name(LUOSSAVIN_DONE), "Done") == 0, "its name", "number", 0);
    check(strcmp(luossavin_refusal_name(LUOSSAVIN_INVALID_TAG), "InvalidTag") == 0, "its name", "number", 4);
    check(strcmp(luossavin_refusal_name(LUOSSAVIN_BAD_KEYS), "BadKeys") == 0, "its name", "number", 26);
    for (uint32_t i = 27; i != 0; i = i < 300 ? i + 1 : 2 * i) {
        check(strcmp(luossavin_refusal_name(i), "Unknown") == 0, "its name", "number", i);
    }
    check(strcmp(luossavin_refusal_name(UINT32_MAX), "Unknown") == 0, "its name", "number", UINT32_MAX);
}

void wiping(void)
{
    for (uint32_t engine = CHOSEN; engine < ENGINES; engine++) {
        left_on_engine(engine);
    }
    wipes();
    names();
}
