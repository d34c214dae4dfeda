#include "shelf_model.h"

#include <string.h>

const char *const shelving_names[3] = {"put", "collect", "find"};

/* Of a superseded record, and of a current one. */
static const uint8_t marks[2][2] = {{0x52, 0x58}, {0x52, 0x44}};

/* Numbers of some bytes, the highest first. */

static uint32_t get(const uint8_t *bytes, int count)
{
    uint32_t n = 0;
    for (int i = 0; i < count; i++) {
        n = n << 8 | bytes[i];
    }
    return n;
}

static void set(uint8_t *bytes, int count, uint32_t n)
{
    for (int i = count - 1; i >= 0; i--) {
        bytes[i] = (uint8_t)n;
        n >>= 8;
    }
}

int read_shelf(const uint8_t *bytes, size_t n, struct shelf_records *rs)
{
    rs->count = 0;
    while (n >= HEAD) {
        int current = memcmp(bytes, marks[1], 2) == 0;
        struct shelf_record r = {current, get(bytes + 2, 4), (uint16_t)get(bytes + 6, 2), bytes + HEAD,
            get(bytes + 8, 4)};
        if ((!current && memcmp(bytes, marks[0], 2) != 0) || r.length > n - HEAD) {
            return 0;
        }
        rs->at[rs->count++] = r;
        bytes += HEAD + r.length;
        n -= HEAD + r.length;
    }
    return n == 0;
}

size_t write_shelf(const struct shelf_records *rs, uint8_t *bytes)
{
    uint8_t *to = bytes;
    for (size_t i = 0; i < rs->count; i++) {
        const struct shelf_record *r = &rs->at[i];
        memcpy(to, marks[r->current], 2);
        set(to + 2, 4, r->job);
        set(to + 6, 2, r->edition);
        set(to + 8, 4, (uint32_t)r->length);
        if (r->length != 0) {
            memcpy(to + HEAD, r->sealed, r->length);
        }
        to += HEAD + r->length;
    }
    return (size_t)(to - bytes);
}

size_t bytes_of(const struct shelf_records *rs)
{
    size_t sum = 0;
    for (size_t i = 0; i < rs->count; i++) {
        sum += HEAD + rs->at[i].length;
    }
    return sum;
}

struct shelf_records *current_ones(const struct shelf_records *rs)
{
    static struct shelf_records kept;
    kept.count = 0;
    for (size_t i = 0; i < rs->count; i++) {
        if (rs->at[i].current) {
            kept.at[kept.count++] = rs->at[i];
        }
    }
    return &kept;
}

/* The current record of a job, from place `from` on; `count` where there is none. */
static size_t current_of(const struct shelf_records *rs, uint32_t job, size_t from)
{
    while (from < rs->count && !(rs->at[from].current && rs->at[from].job == job)) {
        from++;
    }
    return from;
}

static int has_two_current(const struct shelf_records *rs)
{
    for (size_t i = 0; i < rs->count; i++) {
        if (rs->at[i].current && current_of(rs, rs->at[i].job, i + 1) < rs->count) {
            return 1;
        }
    }
    return 0;
}

static int is_higher(const struct shelf_records *rs, uint32_t job, uint16_t edition)
{
    for (size_t i = 0; i < rs->count; i++) {
        if (rs->at[i].job == job && rs->at[i].edition >= edition) {
            return 0;
        }
    }
    return 1;
}

/* The job's current record is superseded, and the new one stands at the end. */
static void put_in(struct shelf_records *rs, const struct shelf_call *c)
{
    size_t old = current_of(rs, c->job, 0);
    if (old < rs->count) {
        rs->at[old].current = 0;
    }
    rs->at[rs->count++] = (struct shelf_record){1, c->job, c->edition, c->sealed, c->sealed_len};
}

/* Done, with these records at the front of the buffer. */
static struct shelf_answer now_holding(const struct shelf_records *rs, uint8_t *after)
{
    return (struct shelf_answer){.used = write_shelf(rs, after)};
}

static struct shelf_answer answer_to_find(const struct shelf_records *rs, const struct shelf_call *c)
{
    struct shelf_answer a = {.number = 22, .used = c->used};
    size_t place = current_of(rs, c->job, 0);
    if (place == rs->count) {
        return a;
    }
    a.number = 0;
    for (size_t i = 0; i < place; i++) {
        a.start += HEAD + rs->at[i].length;
    }
    a.length = HEAD + rs->at[place].length;
    return a;
}

static struct shelf_answer answer_to_put(struct shelf_records *rs, const struct shelf_call *c, uint8_t *after)
{
    if (!is_higher(rs, c->job, c->edition)) {
        return (struct shelf_answer){.number = 20, .used = c->used};
    }
    /* so that no sum of lengths can come round */
    if (c->sealed_len > c->size) {
        return (struct shelf_answer){.number = 21, .used = c->used};
    }
    put_in(rs, c);
    if (bytes_of(rs) > c->size) {
        rs = current_ones(rs);
    }
    if (bytes_of(rs) > c->size) {
        return (struct shelf_answer){.number = 21, .used = c->used};
    }
    return now_holding(rs, after);
}

struct shelf_answer answer_to_shelf(const struct shelf_call *c, const uint8_t *before, uint8_t *after)
{
    static struct shelf_records rs;
    if (c->size > SHELF || c->used > c->size || !read_shelf(before, c->used, &rs) || has_two_current(&rs)) {
        return (struct shelf_answer){.number = 19, .used = c->used};
    }
    if (c->does == FIND) {
        return answer_to_find(&rs, c);
    }
    return c->does == PUT ? answer_to_put(&rs, c, after) : now_holding(current_ones(&rs), after);
}

const char *difference_shelf(struct shelf_answer got, struct shelf_answer due)
{
    return got.number != due.number ? "its number"
        : got.used != due.used      ? "its used count"
        : got.start != due.start    ? "its start"
        : got.length != due.length  ? "its length"
                                    : NULL;
}
