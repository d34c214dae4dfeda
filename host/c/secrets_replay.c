/* Replay of recorded calls, under secrets: texts, labels and outputs of the journal are secret, lengths and answers are not. */
#include "secrets.h"

#include "journal_model.h"

#include <stdio.h>
#include <stdlib.h>

static uint8_t journal[10 * (MOST + 16) + 10000];

/* The key is known while calls are recorded, and with it the answers. */
static void show(int shown)
{
    (shown ? make_known : make_secret)(key.round_keys, sizeof key.round_keys);
    (shown ? make_known : make_secret)(label, sizeof label);
    (shown ? make_known : make_secret)(text, sizeof text);
}

/* Records a call, and makes its label, data and output secret. How many bytes the record has. */
static size_t record(uint32_t mode, int direction, size_t n, uint8_t *to)
{
    static uint8_t sealed[MOST + 16];
    struct entry e = {.direction = (uint8_t)direction, .mode = (uint8_t)mode, .key = NUMBER, .label = {label, sizeof label},
        .data = {text, n}, .iv = {iv, 16}, .room = (uint32_t)(n + 16)};
    size_t size;
    if (direction == DECRYPT) {
        struct luossavin_answer a = luossavin_encrypt(mode, key, label, sizeof label, text, n, iv, 16, sealed, sizeof sealed);
        e.data = (struct bytes){sealed, a.length};
    }
    e = answered_on(e, key);
    size = write_entry(&e, to);
    make_secret(to + 10, e.label.length);
    make_secret(to + 14 + e.label.length, e.data.length);
    make_secret(to + size - e.output.length, e.output.length);
    return size;
}

/* Whether the blocks of a call wait for one another. */
static int waits(uint32_t mode, int direction)
{
    return mode == OFB || (direction == ENCRYPT && (mode == CFB || mode == CBC));
}

/* Calls on n bytes, those whose blocks wait for one another or all others; in one journal the last byte is another. It is in one place whatever the secrets
 * are, since a replay stops comparing a call where it first differs. */
static void replay(size_t n, int waiting, uint32_t differs)
{
    uint32_t calls = 0;
    struct luossavin_keys keys = {.count = 1, .keys = {key}};
    struct luossavin_replayed r;
    struct luossavin_answer a = {0};
    size_t size = 0;
    show(1);
    for (uint32_t mode = CFB; mode <= GCM; mode++) {
        for (int direction = ENCRYPT; direction <= DECRYPT; direction++) {
            if (waits(mode, direction) == waiting) {
                size += record(mode, direction, n, journal + size);
                calls++;
            }
        }
    }
    show(0);
    journal[size - 1] ^= (uint8_t)differs;
    watch(ROUNDS | ANSWERS | (waiting ? WAITS : 0), "a journal of %u calls of %zu bytes, %s", calls, n,
        differs ? "the last of which differs" : "which agrees");
    r = luossavin_replay(keys, journal, size);
    is_answered(&a, 0);
    make_known(&r, sizeof r);
    if (r.number != 0 || r.records != calls || r.differs != differs) {
        fprintf(stderr, "secrets: the replay answers %u, %u\n", r.number, r.differs);
        exit(2);
    }
}

void replays(void)
{
    for (int waiting = 0; waiting <= 1; waiting++) {
        replay(100, waiting, 0);
        replay(100, waiting, 1);
        if (lengths[lengths_count - 1] > 100) {
            replay(9000, waiting, 0);
            replay(9000, waiting, 1);
        }
    }
}
