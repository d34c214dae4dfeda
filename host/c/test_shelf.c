/* A shelf: the header's example, and shelves written down byte for byte; what a record's bytes may be; every refusal with every later one
 * there as well; all short sequences of calls on small buffers; shelves that are drawn, in order and damaged; used counts, marks, lengths
 * and files of any kind; and as many records as fit, on which each call has its time. All but the first two are held to shelf_model.c, the
 * whole buffer among them. */
#define _DEFAULT_SOURCE

#include "test.h"

#include "prepared.h"
#include "random.h"

#include <stdio.h>
#include <stdlib.h>
#include <string.h>
#include <sys/mman.h>
#include <time.h>

/* The longest buffer that is lent. */
enum { LONGEST = SHELF + 100 };

/* Without the model. */

/* Putting or collecting is done, and the shelf is these bytes. */
static void is_now(struct luossavin_shelf a, const uint8_t *shelf, const uint8_t *due, size_t size, size_t used, const char *what)
{
    check(a.number == 0, what, "its number", a.number);
    check(a.used == used, what, "its used count", a.used);
    check(memcmp(shelf, due, size) == 0, what, "the buffer", size);
}

static void is_at(struct luossavin_shelved a, uint32_t number, size_t start, size_t length, const char *what)
{
    check(a.number == number, what, "its number", a.number);
    check(a.start == start && a.length == length, what, "its place", a.start);
}

/* A record's numbers are big-endian; an edition supersedes the one before; collection leaves what is behind. */
static void by_hand(void)
{
    static const uint8_t sealed[3] = {0x31, 0x32, 0x33};
    uint8_t shelf[48], kept[48], due[48] = {0x52, 0x44, 1, 2, 3, 4, 5, 6, 0, 0, 0, 3, 0x31, 0x32, 0x33,
        0x52, 0x44, 0, 0, 0, 7, 0, 0, 0, 0, 0, 0, 0x52, 0x44, 1, 2, 3, 4, 5, 7, 0, 0, 0, 1, 0x33};
    memset(due + 40, LENT, 8);
    memset(kept, LENT, 48);
    memcpy(kept, due, 15);
    memset(shelf, LENT, 48);
    is_now(luossavin_shelf_put(shelf, 48, 0, 0x01020304, 0x0506, sealed, 3), shelf, kept, 48, 15, "a first record");
    memcpy(kept + 15, due + 15, 12);
    is_now(luossavin_shelf_put(shelf, 48, 15, 7, 0, NULL, 0), shelf, kept, 48, 27, "an empty file");
    due[1] = 0x58;
    is_now(luossavin_shelf_put(shelf, 48, 27, 0x01020304, 0x0507, sealed + 2, 1), shelf, due, 48, 40, "an edition");
    is_at(luossavin_shelf_find(shelf, 48, 40, 0x01020304), 0, 27, 13, "the edition");
    is_at(luossavin_shelf_find(shelf, 48, 40, 7), 0, 15, 12, "the empty file");
    is_at(luossavin_shelf_find(shelf, 48, 40, 0x04030201), 22, 0, 0, "a job that is not there");
    memcpy(kept, due, 48);
    memcpy(kept, due + 15, 25);
    is_now(luossavin_shelf_collect(shelf, 48, 40), shelf, kept, 48, 25, "collection");
    is_now(luossavin_shelf_collect(shelf, 48, 25), shelf, kept, 48, 25, "collection once more");
}

/* Where the new record does not fit behind the last one, the job's old record goes as it is: its mark, which is behind
 * the used count then, does not change. Room is the buffer's, to the byte. */
static void by_hand_room(void)
{
    static const uint8_t sealed[4] = {0x31, 0x32, 0x33, 0x34};
    uint8_t shelf[30], due[30] = {0x52, 0x44, 0, 0, 0, 1, 0, 3, 0, 0, 0, 3, 0x31, 0x32, 0x33,
        0x52, 0x44, 0, 0, 0, 1, 0, 2, 0, 0, 0, 3, 0x32, 0x33, 0x34};
    struct luossavin_shelf a;
    memset(shelf, LENT, 30);
    a = luossavin_shelf_put(shelf, 30, 0, 1, 1, sealed, 3);
    a = luossavin_shelf_put(shelf, 30, a.used, 1, 2, sealed + 1, 3);
    check(a.number == 0 && a.used == 30 && shelf[1] == 0x58, "the buffer is full", "room", a.used);
    is_now(luossavin_shelf_put(shelf, 30, 30, 1, 3, sealed, 3), shelf, due, 30, 15, "a put that collects");
    a = luossavin_shelf_put(shelf, 30, 15, 2, 0, sealed, 4);
    check(a.number == 21 && a.used == 15, "a byte too many", "room", a.number);
    check(memcmp(shelf, due, 30) == 0, "a byte too many", "the buffer", 30);
    due[20] = 2;
    due[22] = 0;
    memcpy(due + 27, sealed, 3);
    is_now(luossavin_shelf_put(shelf, 30, 15, 2, 0, sealed, 3), shelf, due, 30, 30, "to the last byte");
}

/* The header's example: the record that is found opens under its own label, and under that of no edition before. */
static void opens(const uint8_t *record, size_t length, uint8_t edition)
{
    uint8_t out[ROOM];
    struct luossavin_answer a = luossavin_decrypt(GCM, key, record + 2, 6, record + 12, length - 12, iv, 16, out, ROOM);
    check(done(a, length - 28), "it opens", "the header's example", a.number);
    check(memcmp(out, rfc_text + edition, length - 28) == 0, "its text", "the header's example", edition);
    for (uint8_t earlier = 0; earlier < edition; earlier++) {
        a = luossavin_edition_open(key, 7, earlier, record + 12, length - 12, iv, 16, out, ROOM);
        check(a.number == 4, "an earlier edition's label", "the header's example", a.number);
    }
}

static void example(void)
{
    uint8_t shelf[200], sealed[20 + 16];
    size_t used = 0;
    memset(shelf, LENT, sizeof shelf);
    for (uint8_t edition = 1; edition <= 9; edition++) {
        prepared(luossavin_edition_seal(key, 7, edition, rfc_text + edition, 20, iv, 16, sealed, sizeof sealed));
        used = luossavin_shelf_put(shelf, sizeof shelf, used, 7, edition, sealed, sizeof sealed).used;
        struct luossavin_shelved r = luossavin_shelf_find(shelf, sizeof shelf, used, 7);
        int whole = r.number == 0 && r.start < sizeof shelf - sizeof sealed - HEAD && r.length == HEAD + sizeof sealed;
        check(whole, "it is found", "the header's example", r.start);
        if (whole) {
            opens(shelf + r.start, r.length, edition);
        }
    }
}

/* Against the model. */

/* The call that runs, the bytes that its buffer is lent with, and those that it is to have after the call. */
static struct shelf_call now;
static const uint8_t *bytes_now;
static uint8_t shelf_after[LONGEST];

/* Whether a call is held to its time: a second of the processor, the emulator's work included. */
static int is_timed;

static void describe_shelf(char *words, size_t room)
{
    int n = snprintf(words, room, "%s, job %u, edition %u, %zu bytes, buffer %zu, used %zu; it holds", shelving_names[now.does], now.job,
        now.edition, now.sealed_len, now.size, now.used);
    for (size_t i = 0; i < now.used && i < now.size && i < 60; i++) {
        n += snprintf(words + n, room - (size_t)n, "%s%02x", i % 4 ? "" : " ", bytes_now[i]);
    }
}

/* The answer is the model's, which is handed back, and so is every byte of the buffer. A call that looks up may not write. */
static struct shelf_answer ask(struct shelf_call c, const uint8_t *before)
{
    struct buffer shelf = lend(c.size, 0), sealed = lend(c.sealed_len, 0);
    struct shelf_answer due, got;
    clock_t start = 0;
    memcpy(shelf.bytes, before, c.size);
    memcpy(shelf_after, before, c.size);
    if (c.sealed_len != 0) {
        memcpy(sealed.bytes, c.sealed, c.sealed_len);
    }
    shut(sealed);
    if (c.does == FIND) {
        shut(shelf);
    }
    now = c;
    bytes_now = before;
    describe = describe_shelf;
    due = answer_to_shelf(&c, before, shelf_after);
    c.sealed = lent(sealed);
    if (is_timed) {
        start = clock();
    }
    got = call_shelf(&c, lent(shelf));
    if (is_timed) {
        holds_now(clock() - start <= CLOCKS_PER_SEC ? NULL : "it takes more than a second");
    }
    if (judged(due.number, difference_shelf(got, due))) {
        holds_now(memcmp(shelf.bytes, shelf_after, c.size) == 0 ? NULL : "the buffer");
        wrote_only(shelf, c.size);
        holds_now(c.sealed_len == 0 || memcmp(sealed.bytes, now.sealed, c.sealed_len) == 0 ? NULL : "it changes an input");
    }
    give_back(shelf);
    give_back(sealed);
    return due;
}

/* A buffer with its used count: the one that the calls below are on. */
struct shelf {
    size_t size, used;
    uint8_t bytes[LONGEST];
};

static struct shelf s;

/* What no record has written: a byte that is moved is seen. */
static void make_empty(size_t size)
{
    s.size = size;
    s.used = 0;
    for (size_t i = 0; i < size; i++) {
        s.bytes[i] = (uint8_t)(i * 29 + i / 256 + 3);
    }
}

/* Sealed bytes, from a place that goes by job and edition. */
static uint8_t plenty[4 * SHELF + 64 * (67 + 7)];

static const uint8_t *sealed_of(uint32_t job, uint16_t edition)
{
    return plenty + (job % 64 * 67 + edition % 64 * 7);
}

static struct shelf_answer put(uint32_t job, uint16_t edition, size_t length)
{
    return ask((struct shelf_call){PUT, s.size, s.used, job, edition, length ? sealed_of(job, edition) : NULL, length}, s.bytes);
}

static struct shelf_answer collect(void)
{
    return ask((struct shelf_call){.does = COLLECT, .size = s.size, .used = s.used}, s.bytes);
}

static struct shelf_answer find(uint32_t job)
{
    return ask((struct shelf_call){.does = FIND, .size = s.size, .used = s.used, .job = job}, s.bytes);
}

/* A record behind the others, as it is given: no call is made. */
static void add(int current, uint32_t job, uint16_t edition, size_t length)
{
    static struct shelf_records one_record = {.count = 1};
    one_record.at[0] = (struct shelf_record){current, job, edition, sealed_of(job, edition), length};
    s.used += write_shelf(&one_record, s.bytes + s.used);
}

/* Whether these are records in order: none of the three calls refuses them with 19, or each does. */
static void is_shelf(int yes, const char *what)
{
    check((put(1, 100, 1).number != 19) == yes, what, "in putting", s.used);
    check((collect().number != 19) == yes, what, "in collecting", s.used);
    check((find(1).number != 19) == yes, what, "in looking up", s.used);
}

/* The calls on the first `used` bytes; job 1 is looked up, and gets an edition that fits or does not. */
static void ask_each(size_t size, size_t used)
{
    s.size = size;
    s.used = used;
    put(1, 9, 2);
    put(1, 9, size / 2);
    collect();
    find(1);
}

/* Job 1 in two editions, and job 2 between them; the files have so many bytes. How many bytes that is. */
static size_t make_three(size_t length)
{
    make_empty(LONGEST);
    add(0, 1, 0, length);
    add(1, 2, 1, length);
    add(1, 1, 2, length);
    return s.used;
}

/* What a record's bytes may be. */

/* Of all marks two are known. */
static void marks(void)
{
    unsigned known = 0;
    make_empty(40);
    add(1, 1, 5, 2);
    add(1, 2, 5, 1);
    for (size_t at = 0; at <= 14; at += 14) {
        for (unsigned mark = 0; mark < 65536; mark++) {
            s.bytes[at] = (uint8_t)(mark >> 8);
            s.bytes[at + 1] = (uint8_t)mark;
            known += find(2).number != 19;
        }
        s.bytes[at] = 0x52;
        s.bytes[at + 1] = 0x44;
    }
    check(known == 4, "how many marks are known", "every mark", known);
}

/* The last record says any length, in a buffer that is full or has more: those about what is left, and those of which some bytes, or the
 * sum, would say the same. */
static void lengths(void)
{
    static const uint32_t fronts[] = {0, 0x100, 0xff00, 0x10000, 0x01000000, 0x7ffffff0, 0x80000000, 0xff000000, 0xffff0000, 0xffffffe0};
    for (size_t left = 0; left <= 20; left += is_sparse ? 10 : 1) {
        for (size_t i = 0; i < 32 * sizeof fronts / sizeof *fronts; i++) {
            uint32_t said = fronts[i / 32] + i % 32;
            make_empty(60);
            add(0, 3, 1, 4);
            add(1, 1, 1, left);
            for (int b = 0; b < 4; b++) {
                s.bytes[16 + 8 + b] = (uint8_t)(said >> (24 - 8 * b));
            }
            is_shelf(said == left, "what a length says");
            s.size = s.used;
            is_shelf(said == left, "what a length says in a full buffer");
        }
    }
}

/* Records of which a sum in 32 bits would lead back into their own heads, where another one seems to stand. */
static void sums(void)
{
    for (uint8_t back = 4; back <= 6; back++) {
        make_empty(40);
        add(0, 0, 0, 0);
        memcpy(s.bytes + 8, (uint8_t[4]){0xff, 0xff, 0xff, (uint8_t)(0xf4 + back)}, 4);
        memset(s.bytes + 12, 0, 20);
        memcpy(s.bytes + back, (uint8_t[2]){0x52, 0x44}, 2);
        s.used = back + HEAD;
        is_shelf(0, "a sum that comes round");
    }
}

/* Every byte another, in a buffer that is full and in one that has a byte more. */
static void every_byte(void)
{
    static const uint8_t by[] = {0x01, 0x02, 0x10, 0x1c, 0x80, 0xff};
    size_t full = make_three(3);
    for (size_t i = 0; i < 6 * full; i++) {
        s.bytes[i / 6] ^= by[i % 6];
        ask_each(full, full);
        ask_each(full + 1, full);
        s.bytes[i / 6] ^= by[i % 6];
    }
}

/* Every used count, and some that are far behind the buffer: of one buffer those that are known, and of every size about full ones. */
static void used_counts(void)
{
    static const size_t far[] = {SHELF, SHELF + 1, (size_t)1 << 32, ((size_t)1 << 32) + 29, ((size_t)1 << 32) + 42, SIZE_MAX / 2 + 1,
        SIZE_MAX / 2 + 30, SIZE_MAX - 11, SIZE_MAX - 1, SIZE_MAX};
    enum { FAR = sizeof far / sizeof *far };
    for (size_t size = 29; size <= 60; size += 31) {
        make_empty(size);
        add(1, 1, 5, 2);
        add(0, 1, 9, 3);
        for (size_t i = 0; i < size + 3 + FAR; i++) {
            s.used = i < size + 3 ? i : far[i - size - 3];
            is_shelf(s.used == 0 || s.used == 14 || s.used == 29, "a used count");
        }
    }
    make_empty(0);
    is_shelf(1, "a buffer of 0 bytes");
    s.used = SIZE_MAX;
    is_shelf(0, "a buffer of 0 bytes, and used 2^64 - 1");
    for (size_t length = 0; length <= 4; length++) {
        size_t full = make_three(length);
        for (size_t size = 0; size <= full + 1; size += is_sparse ? 7 : 1) {
            for (size_t i = 0; i < size + 3 + FAR; i++) {
                ask_each(size, i < size + 3 ? i : far[i - size - 3]);
            }
        }
    }
}

/* Files of every length about what fits, behind the last record and once all is collected. */
static void files(void)
{
    for (size_t length = 0; length <= 3; length++) {
        size_t full = make_three(length);
        for (s.size = full; s.size <= full + 15; s.size++) {
            for (size_t n = 0; n <= s.size; n++) {
                put(1, 3, n);
                put(2, 3, n);
                put(3, 0, n);
            }
            put(1, 2, 0);
        }
    }
    for (size_t i = 0; i < 17 * 6; i++) {
        make_empty(i / 6);
        put(0, 0, i % 6);
    }
}

/* Buffers about 65,536 bytes, with nothing in them, with one record, and with three. */
static void sizes(void)
{
    for (size_t size = SHELF - 2; size <= LONGEST; size += size < SHELF + 3 ? 1 : 7) {
        make_empty(size);
        is_shelf(size <= SHELF, "a long buffer");
        for (size_t less = 0; less < 3 && size <= SHELF; less++) {
            put(1, 0, size - HEAD + 1 - less);
            put(1, 0, SHELF + less);
        }
        add(1, 2, 1, size - HEAD);
        is_shelf(size <= SHELF, "a long record");
        find(2);
        put(2, 2, size - HEAD);
        put(2, 2, size - HEAD + 1);
    }
    for (size_t size = SHELF - 1; size <= SHELF + 1; size++) {
        size_t full = make_three(SHELF / 3 - 13);
        ask_each(size, full);
        ask_each(size, 0);
        for (size_t n = size - HEAD - 1; n <= size - HEAD + 1; n++) {
            s.used = 0;
            put(1, 0, n);
            s.used = full;
            put(1, 3, n - SHELF / 3);
        }
        put(3, 0, 4 * SHELF);
    }
}

/* Buffers and files whose lengths are small in 32 bits. They are pages that may be read, and not written. */
static void long_ones(void)
{
    static const char *const where[] = {"putting on a buffer of over 4 GiB", "collecting a buffer of over 4 GiB",
        "looking up in a buffer of over 4 GiB"};
    size_t over = (size_t)1 << 32, most = over + 60;
    uint8_t *pages = mmap(NULL, most, PROT_READ, MAP_PRIVATE | MAP_ANONYMOUS | MAP_NORESERVE, -1, 0), small[60] = {0};
    if (pages == MAP_FAILED) {
        perror("a long buffer");
        exit(2);
    }
    bytes_now = small;
    for (int does = PUT; does <= FIND; does++) {
        now = (struct shelf_call){.does = (enum shelving)does, .size = most};
        check(call_shelf(&now, pages).number == 19, "19", where[does], most);
    }
    for (size_t n = over - 12; n <= most; n += 12) {
        now = (struct shelf_call){.size = 60, .sealed = pages, .sealed_len = n};
        check(call_shelf(&now, small).number == 21, "21", "a file of 4 GiB", n);
    }
    munmap(pages, most);
}

/* What stands on a shelf. */

/* One current record of a job; superseded ones repeat, and are higher than the current one. */
static void repeated(void)
{
    static const uint32_t jobs[] = {1, 2, 0x01000001, 0xffffffff, 0};
    for (int i = 0; i < 8 * 5; i++) {
        int marks = i / 5, twice = (marks & 1) + (marks >> 1 & 1) + (marks >> 2 & 1 && jobs[i % 5] == 1) > 1;
        make_empty(100);
        add(marks & 1, 1, 5, 3);
        add(marks >> 1 & 1, 1, 5, 3);
        add(marks >> 2 & 1, jobs[i % 5], 2, 0);
        is_shelf(!twice, "one job more than once");
        for (uint16_t e = 0; e < 8; e++) {
            put(1, e, 30);
            put(jobs[i % 5], e, 70);
        }
        find(jobs[i % 5]);
    }
}

/* Every edition on the shelf, current or not, against those about it. */
static void editions_on_shelf(void)
{
    static const uint16_t some[] = {0, 1, 2, 127, 128, 255, 256, 257, 0x0102, 0x0201, 0x7fff, 0x8000, 0xfffe, 0xffff};
    enum { SOME = sizeof some / sizeof *some };
    for (size_t i = 0; i < SOME * SOME * SOME; i++) {
        uint16_t superseded = some[i % SOME], current = some[i / SOME % SOME], given = some[i / SOME / SOME];
        make_empty(64);
        add(0, 9, superseded, 1);
        add(1, 9, current, 1);
        check(put(9, given, 1).number == (given > superseded && given > current ? 0 : 20), "20", "editions", given);
        check(put(8, given, 1).number == 0, "0", "a new job", given);
    }
}

/* Refusals, with every later one there as well. */

enum { IN_ORDER, LONG_BUFFER, USED_ABOVE, CUT, LEFT_OVER, BAD_MARK, BAD_LAST_MARK, LONG_LENGTH, TWO_CURRENT, WAYS };

/* 60 bytes with job 1 in edition 5, superseded, and 3, and job 2, or with one thing that is wrong. */
static void make_wrong(int way)
{
    make_empty(way == LONG_BUFFER ? SHELF + 1 : 60);
    add(0, 1, 5, 4);
    add(1, 1, 3, 4);
    add(1, way == TWO_CURRENT ? 1 : 2, 0, 4);
    s.bytes[0] ^= way == BAD_MARK;
    s.bytes[33] ^= way == BAD_LAST_MARK;
    s.bytes[16 + 11] += 20 * (way == LONG_LENGTH);
    s.used += way == USED_ABOVE ? 13 : way == LEFT_OVER ? 1 : 0;
    s.used -= way == CUT;
}

static void refusals(void)
{
    for (int way = IN_ORDER; way < WAYS; way++) {
        make_wrong(way);
        for (uint16_t edition = 5; edition <= 6; edition++) {
            /* where job 2's record alone stays, 60 - 16 - 12 bytes fit in */
            for (size_t length = 32; length <= 33; length++) {
                uint32_t due = way != IN_ORDER ? 19 : edition == 5 ? 20 : length == 33 ? 21 : 0;
                check(put(1, edition, way == LONG_BUFFER && length == 33 ? SHELF : length).number == due, "what comes first in putting",
                    "a shelf that is wrong", (size_t)way);
            }
        }
        for (uint32_t job = 2; job <= 3; job++) {
            check(find(job).number == (way != IN_ORDER ? 19 : job == 3 ? 22 : 0), "what comes first in looking up", "a shelf that is wrong",
                (size_t)way);
        }
        check(collect().number == (way == IN_ORDER ? 0 : 19), "what comes first in collecting", "a shelf that is wrong", (size_t)way);
    }
}

/* All sequences of calls on a small buffer: two jobs, editions 0 to 3, files of 0 to 3 bytes. A call that is refused
 * leaves what was, so only those that are done go on. */

struct world {
    size_t used;
    uint8_t bytes[64];
};

static void go_on(struct world w, size_t size, int calls_left);

static void go_on_after(struct shelf_answer a, size_t used, size_t size, int calls_left)
{
    struct world next = {.used = a.used};
    if (a.number == 0 && a.used != used && calls_left > 1) {
        memcpy(next.bytes, shelf_after, size);
        go_on(next, size, calls_left - 1);
    }
}

static void go_on(struct world w, size_t size, int calls_left)
{
    struct shelf_call c = {.does = FIND, .size = size, .used = w.used};
    for (c.job = 0; c.job < 3; c.job++) {
        ask(c, w.bytes);
    }
    c.does = COLLECT;
    go_on_after(ask(c, w.bytes), w.used, size, calls_left);
    c.does = PUT;
    for (c.job = 0; c.job < 2; c.job++) {
        for (c.edition = 0; c.edition < 4; c.edition++) {
            c.sealed = sealed_of(c.job, c.edition);
            for (c.sealed_len = 0; c.sealed_len < 4; c.sealed_len++) {
                go_on_after(ask(c, w.bytes), SIZE_MAX, size, calls_left);
            }
        }
    }
}

static void small_worlds(void)
{
    static const struct { size_t size; int calls; } worlds[] = {{0, 1}, {11, 1}, {12, 4}, {13, 4}, {15, 4}, {23, 4},
        {24, 4}, {25, 4}, {27, 4}, {30, 4}, {36, 3}, {38, 3}, {41, 3}, {45, 3}, {64, 3}};
    for (size_t i = 0; i < sizeof worlds / sizeof *worlds; i++) {
        struct world w = {0};
        make_empty(worlds[i].size);
        memcpy(w.bytes, s.bytes, s.size);
        go_on(w, worlds[i].size, worlds[i].calls);
    }
}

/* Shelves that are drawn. */

static const uint32_t drawn_jobs[] = {0, 1, 2, 256, 0x01020304, 0xffffffff};
enum { JOBS = sizeof drawn_jobs / sizeof *drawn_jobs };

/* In order, but for a job that is current twice at times. */
static void draw_records(struct shelf_records *rs)
{
    static const uint16_t some[] = {0, 1, 2, 3, 255, 256, 0x1234, 0xfffe};
    int current[JOBS] = {0};
    rs->count = below(10);
    for (size_t i = 0; i < rs->count; i++) {
        size_t job = below(JOBS);
        size_t length = below(200) == 0 ? below(6000) : below(8) == 0 ? below(600) : below(40);
        rs->at[i] = (struct shelf_record){below(2) && (!current[job] || below(50) == 0), drawn_jobs[job],
            some[below(8)], plenty + below(SHELF), length};
        current[job] |= rs->at[i].current;
    }
}

/* Half of them with one thing wrong: a byte, or the used count. */
static void damage(void)
{
    size_t way = below(6);
    if (way == 0 && s.used != 0) {
        s.bytes[below(s.used)] ^= (uint8_t)(1 << below(8));
    } else if (way == 1 && s.used != 0) {
        s.bytes[below(s.used)] = (uint8_t)draw();
    } else if (way == 2) {
        s.used = below(s.used + 1);
    }
}

/* The bytes of current records of other jobs. */
static size_t others(const struct shelf_records *rs, uint32_t job)
{
    size_t sum = 0;
    for (size_t i = 0; i < rs->count; i++) {
        sum += rs->at[i].current && rs->at[i].job != job ? HEAD + rs->at[i].length : 0;
    }
    return sum;
}

/* A file that about fills what is behind so many bytes. */
static size_t draw_length(size_t behind)
{
    size_t most = s.size - behind;
    return behind + HEAD > s.size ? below(4) : most - HEAD + 1 - below(most - HEAD < 2 ? 2 : 3);
}

static void drawn(void)
{
    static struct shelf_records rs;
    unsigned long answers[NUMBERS] = {0};
    int count = is_sparse ? 200 : 10000;
    for (int i = 0; i < count; i++) {
        draw_records(&rs);
        make_empty(bytes_of(&rs) + below(below(2) ? 4 : 80));
        s.used = write_shelf(&rs, s.bytes);
        damage();
        for (size_t j = 0; j < JOBS; j++) {
            uint32_t job = drawn_jobs[j];
            uint16_t edition = (uint16_t)(below(3) ? 0xffff : below(2) ? below(5) : draw());
            size_t bytes[] = {draw_length(s.used), draw_length(others(&rs, job)), below(50)};
            for (int k = 0; k < 3; k++) {
                answers[put(job, edition, bytes[k]).number]++;
            }
            answers[find(job).number]++;
        }
        answers[collect().number]++;
    }
    check(is_sparse || (answers[0] > 9999 && answers[19] > 9999 && answers[20] > 999 && answers[21] > 9999 && answers[22] > 999),
        "every answer", "shelves that are drawn", answers[20]);
}

/* As many records as fit, all of them empty: each call within a second. */

static void make_crowded(int current)
{
    make_empty(SHELF);
    for (uint32_t i = 0; i < RECORDS; i++) {
        add(current, i, 1, 0);
    }
}

static void crowded(void)
{
    is_timed = 1;
    make_crowded(1);
    check(s.used == 65532, "5,461 records", "how many bytes they have", s.used);
    find(RECORDS - 1);
    put(0, 2, 4);
    ask_each(SHELF, s.used);
    /* at the last one it turns out that they are no shelf */
    s.bytes[s.used - 1]++;
    ask_each(SHELF, s.used);
    s.bytes[s.used - 1]--;
    s.bytes[s.used - HEAD]--;
    find(0);
    s.bytes[s.used - HEAD]++;
    memcpy(s.bytes + s.used - HEAD, s.bytes + s.used - 2 * HEAD, HEAD);
    put(RECORDS, 0, 0);
    make_crowded(0);
    find(0);
    put(RECORDS - 1, 2, SHELF - HEAD);
    collect();
    is_timed = 0;
}

void shelves(void)
{
    seed = 20261115;
    draw_bytes(plenty, sizeof plenty);
    by_hand();
    by_hand_room();
    example();
    lengths();
    sums();
    every_byte();
    used_counts();
    files();
    repeated();
    refusals();
    drawn();
    if (!is_sparse) {
        sizes();
        crowded();
    }
    /* by what bytes say, and not by where they stand: once */
    if (!is_sparse && place != FENCE_BEFORE) {
        marks();
        long_ones();
        editions_on_shelf();
        small_worlds();
    }
}
