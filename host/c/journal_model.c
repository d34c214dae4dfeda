#define _DEFAULT_SOURCE

#include "journal_model.h"

#include <stdio.h>
#include <stdlib.h>
#include <string.h>
#include <sys/mman.h>

/* Room for any that a record can state, of which a call touches little. */
static uint8_t *all_room(void)
{
    static uint8_t *room;
    if (room == NULL) {
        room = mmap(NULL, (size_t)1 << 32, PROT_READ | PROT_WRITE, MAP_PRIVATE | MAP_ANONYMOUS | MAP_NORESERVE, -1, 0);
    }
    if (room == MAP_FAILED) {
        perror("room for a recorded call");
        exit(2);
    }
    return room;
}

static struct luossavin_answer made_again(const struct entry *e, struct luossavin_key key)
{
    return (e->direction == 0 ? luossavin_encrypt : luossavin_decrypt)(e->mode, key, e->label.at, e->label.length,
        e->data.at, e->data.length, e->iv.at, e->iv.length, all_room(), e->room);
}

struct entry answered_on(struct entry e, struct luossavin_key key)
{
    struct luossavin_answer a = made_again(&e, key);
    e.number = (uint8_t)a.number;
    e.output = (struct bytes){all_room(), a.length};
    return e;
}

/* Writing. */

/* A number of some bytes, the highest first. */
static uint8_t *put_number(uint8_t *to, int count, size_t n)
{
    for (int i = 0; i < count; i++) {
        to[i] = (uint8_t)(n >> 8 * (count - 1 - i));
    }
    return to + count;
}

static uint8_t *put_part(uint8_t *to, struct bytes part)
{
    to = put_number(to, 4, part.length);
    if (part.length != 0) {
        memcpy(to, part.at, part.length);
    }
    return to + part.length;
}

size_t write_entry(const struct entry *e, uint8_t *to)
{
    const uint8_t *from = to;
    to = put_number(to, 2, 0x5452);
    to = put_number(to, 1, e->direction);
    to = put_number(to, 1, e->mode);
    to = put_number(to, 2, e->key);
    to = put_part(to, e->label);
    to = put_part(to, e->data);
    to = put_part(to, e->iv);
    to = put_number(to, 4, e->room);
    to = put_number(to, 1, e->number);
    to = put_part(to, e->output);
    return (size_t)(to - from);
}

/* Reading. */

/* What is left of a file, and whether more was asked for than there was. */
struct reader {
    const uint8_t *at;
    size_t left;
    int is_cut;
};

static struct bytes get_bytes(struct reader *r, size_t n)
{
    struct bytes got = {r->at, n};
    if (n > r->left) {
        r->is_cut = 1;
        got.length = 0;
    }
    r->at += got.length;
    r->left -= got.length;
    return got;
}

static size_t get_number(struct reader *r, size_t count)
{
    struct bytes got = get_bytes(r, count);
    size_t n = 0;
    for (size_t i = 0; i < got.length; i++) {
        n = 256 * n + got.at[i];
    }
    return n;
}

static struct bytes get_part(struct reader *r)
{
    return get_bytes(r, get_number(r, 4));
}

/* Reads the record at the front of what is left. Whether it is whole, with mark and direction as they must be. */
static int read_entry(struct reader *r, struct entry *e)
{
    size_t mark = get_number(r, 2);
    e->direction = (uint8_t)get_number(r, 1);
    e->mode = (uint8_t)get_number(r, 1);
    e->key = (uint16_t)get_number(r, 2);
    e->label = get_part(r);
    e->data = get_part(r);
    e->iv = get_part(r);
    e->room = (uint32_t)get_number(r, 4);
    e->number = (uint8_t)get_number(r, 1);
    e->output = get_part(r);
    return !r->is_cut && mark == 0x5452 && e->direction <= 1;
}

static int is_too_long(const struct entry *e)
{
    return e->label.length > PART_LIMIT || e->data.length > PART_LIMIT || e->iv.length > PART_LIMIT
        || e->output.length > OUTPUT_LIMIT;
}

/* Keys. */

uint16_t number_on(const struct luossavin_key *key)
{
    return key->answer == 0 ? key->number : 0;
}

static int are_bad(const struct luossavin_keys *keys)
{
    if (keys->count > MOST_KEYS) {
        return 1;
    }
    for (size_t i = 0; i < keys->count; i++) {
        for (size_t j = 0; j < i; j++) {
            if (number_on(&keys->keys[i]) == number_on(&keys->keys[j])) {
                return 1;
            }
        }
        if (keys->keys[i].retired != 0) {
            return 1;
        }
    }
    return 0;
}

/* The key of a number; NULL where none has it. */
static const struct luossavin_key *key_of(const struct luossavin_keys *keys, uint16_t number)
{
    for (size_t i = 0; i < keys->count; i++) {
        if (number_on(&keys->keys[i]) == number) {
            return &keys->keys[i];
        }
    }
    return NULL;
}

/* The report. */

static void count(struct luossavin_replayed *r, const struct entry *e, struct luossavin_key key, size_t place)
{
    struct luossavin_answer a = made_again(e, key);
    int agrees = e->number == a.number && e->output.length == a.length
        && memcmp(e->output.at, all_room(), a.length) == 0;
    if (!agrees && r->differs == 0) {
        r->differs = 1;
        r->first_record = r->records;
        r->first_place = place;
    }
    r->records++;
    r->by_mode[e->mode > 4 ? 5 : e->mode]++;
    r->by_answer[a.number]++;
    r->bytes_in += e->data.length;
    r->bytes_out += a.length;
}

struct luossavin_replayed answer_to_replay(const struct luossavin_keys *keys, const uint8_t *file, size_t n)
{
    struct luossavin_replayed due = {0};
    struct reader r = {file, n, 0};
    if (are_bad(keys)) {
        due.number = 26;
        return due;
    }
    while (due.number == 0 && r.left != 0) {
        size_t place = n - r.left;
        struct entry e;
        if (!read_entry(&r, &e)) {
            due.number = 23;
        } else if (is_too_long(&e)) {
            due.number = 24;
        } else if (key_of(keys, e.key) == NULL) {
            due.number = 25;
        } else {
            count(&due, &e, *key_of(keys, e.key), place);
        }
        due.place = due.number != 0 ? place : 0;
    }
    return due;
}

const char *difference_replayed(const struct luossavin_replayed *got, const struct luossavin_replayed *due)
{
    return got->number != due->number                                          ? "its number"
        : got->place != due->place                                             ? "the place of the refusal"
        : got->differs != due->differs                                         ? "whether a record differs"
        : got->first_record != due->first_record                               ? "the first record that differs"
        : got->first_place != due->first_place                                 ? "the place of the first difference"
        : got->records != due->records                                         ? "how many records there are"
        : memcmp(got->by_mode, due->by_mode, sizeof due->by_mode) != 0          ? "how many in each mode"
        : memcmp(got->by_answer, due->by_answer, sizeof due->by_answer) != 0    ? "how many with each number"
        : got->bytes_in != due->bytes_in                                       ? "the bytes in"
        : got->bytes_out != due->bytes_out                                     ? "the bytes out"
                                                                               : NULL;
}
