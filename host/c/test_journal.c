/* Journals: one that is written down byte for byte, with RFC 8998's vector in it; every mode both ways and every answer; rooms, modes,
 * directions and marks; each set of records that differ; every byte another; every cut; lengths, and parts at their limits; numbers of
 * keys, and what keys may be; every refusal with every later one there as well; journals that are joined, and that are drawn, in order and
 * damaged; and one of more than 4 GiB. All but the one that is written down and the last are held to journal_model.c, and most to what the
 * test knows besides. */
#define _GNU_SOURCE

#include "test.h"

#include "journal_model.h"
#include "random.h"

#include <stdio.h>
#include <stdlib.h>
#include <string.h>
#include <sys/mman.h>
#include <unistd.h>

/* The most bytes of a journal that is written here. */
enum { LONGEST = 1 << 20 };

/* The journal that is replayed, and the keys. */
static uint8_t file[LONGEST];
static size_t size;
static struct luossavin_keys ring;

/* The first `count` of eight keys: number NUMBER, which is the one of `key`, and seven others. */
static const uint16_t numbers[MOST_KEYS] = {NUMBER, 1, 2, 255, 256, 0x6712, 0x8000, 65535};
static struct luossavin_key eight[MOST_KEYS];

static void set_up_eight(void)
{
    uint8_t other[16];
    for (uint8_t i = 0; i < MOST_KEYS; i++) {
        memcpy(other, key_bytes, 16);
        other[15] ^= i;
        eight[i] = luossavin_key_engine(luossavin_key_new(other, 16, numbers[i]), i % ENGINES);
    }
}

static void give_keys(size_t count)
{
    memcpy(ring.keys, eight, sizeof eight);
    ring.count = count;
}

static void describe_journal(char *words, size_t room)
{
    int n = snprintf(words, room, "a journal, %zu keys, %zu bytes:", ring.count, size);
    for (size_t i = 0; i < size && i < 80; i++) {
        n += snprintf(words + n, room - (size_t)n, "%s%02x", i % 4 ? "" : " ", file[i]);
    }
}

/* A replay has the report that is due, and leaves the journal as it is. */
static void is_due(const struct luossavin_replayed *due)
{
    struct buffer journal = lend(size, 0);
    struct luossavin_replayed got;
    memcpy(journal.bytes, file, size);
    shut(journal);
    describe = describe_journal;
    got = luossavin_replay(ring, lent(journal), size);
    judged(due->number, difference_replayed(&got, due));
    holds_now(memcmp(journal.bytes, file, size) == 0 ? NULL : "it changes the journal");
    give_back(journal);
}

/* The answer is the model's, which is handed back. */
static struct luossavin_replayed ask(void)
{
    struct luossavin_replayed due = answer_to_replay(&ring, file, size);
    is_due(&due);
    return due;
}

/* And it has this number, with this many records before, and the place that is due to a refusal. */
static struct luossavin_replayed ask_for(uint32_t number, size_t records, size_t place, const char *what)
{
    struct luossavin_replayed due = ask();
    check(due.number == number, what, "its number", due.number);
    check(due.records == records, what, "its records", due.records);
    check(due.place == place, what, "its place", due.place);
    return due;
}

/* Calls. */

/* A call on n bytes of a text, at most 64, or on what these are encrypted to. */
static struct entry call(int direction, uint8_t mode, size_t n)
{
    static uint8_t sealed[80];
    struct bytes data = {rfc_text, n};
    if (direction == DECRYPT && mode <= GCM) {
        data.at = sealed;
        data.length = luossavin_encrypt(mode, key, label, sizeof label, rfc_text, n, iv, 16, sealed, 80).length;
    }
    return (struct entry){.direction = (uint8_t)direction, .mode = mode, .key = NUMBER, .label = {label, sizeof label},
        .data = data, .iv = {iv, 16}, .room = 100};
}

/* Behind the others, as it is given. Where it stands. */
static size_t add(struct entry e)
{
    size_t place = size;
    size += write_entry(&e, file + size);
    return place;
}

/* As it answers on its key. */
static size_t write_answered(struct entry e)
{
    for (size_t i = 0; i < ring.count && i < MOST_KEYS; i++) {
        if (number_on(&ring.keys[i]) == e.key) {
            return add(answered_on(e, ring.keys[i]));
        }
    }
    return add(e);
}

/* Six calls, which are of every mode, done and refused. Their places, and the end. */
enum { SIX = 6 };

static void write_six(size_t places[SIX + 1])
{
    static const struct { int direction; uint8_t mode; size_t n; } six[SIX] = {{ENCRYPT, CFB, 5}, {DECRYPT, CBC, 3}, {ENCRYPT, 9, 2},
        {DECRYPT, GCM, 1}, {ENCRYPT, OFB, 0}, {ENCRYPT, CTR, 17}};
    size = 0;
    for (int i = 0; i < SIX; i++) {
        places[i] = write_answered(call(six[i].direction, six[i].mode, six[i].n));
    }
    places[SIX] = size;
}

/* Without the model. */

static void append(const uint8_t *bytes, size_t n)
{
    memcpy(file + size, bytes, n);
    size += n;
}

#define APPEND(...) append((const uint8_t[]){__VA_ARGS__}, sizeof(const uint8_t[]){__VA_ARGS__})

/* RFC 8998's message, sealed and opened; a mode that is none, with 4,000,000,000 bytes of room; and three bytes that
 * are no message. They stand at 0, 203, 406 and 433, and end at 475. */
static void write_by_hand(void)
{
    size = 0;
    for (uint8_t direction = ENCRYPT; direction <= DECRYPT; direction++) {
        APPEND(0x54, 0x52, direction, 4, 0x12, 0x67, 0, 0, 0, 20);
        append(rfc_label, 20);
        APPEND(0, 0, 0, direction == ENCRYPT ? 64 : 80);
        append(direction == ENCRYPT ? rfc_text : rfc_sealed, direction == ENCRYPT ? 64 : 80);
        APPEND(0, 0, 0, 12);
        append(rfc_iv, 12);
        APPEND(0, 0, 0, direction == ENCRYPT ? 80 : 64, 0, 0, 0, 0, direction == ENCRYPT ? 80 : 64);
        append(direction == ENCRYPT ? rfc_sealed : rfc_text, direction == ENCRYPT ? 80 : 64);
    }
    APPEND(0x54, 0x52, 0, 5, 0x12, 0x67, 0, 0, 0, 0, 0, 0, 0, 0, 0, 0, 0, 0, 0xee, 0x6b, 0x28, 0, 7, 0, 0, 0, 0);
    APPEND(0x54, 0x52, 1, 4, 0x12, 0x67, 0, 0, 0, 0, 0, 0, 0, 3, 0xaa, 0xaa, 0xaa, 0, 0, 0, 12);
    append(rfc_iv, 12);
    APPEND(0, 0, 0, 0, 9, 0, 0, 0, 0);
}

static void by_hand(void)
{
    struct luossavin_replayed due = {.records = 4, .by_mode = {[4] = 3, [5] = 1},
        .by_answer = {[0] = 2, [7] = 1, [9] = 1}, .bytes_in = 64 + 80 + 3, .bytes_out = 80 + 64};
    ring = (struct luossavin_keys){.count = 1, .keys = {luossavin_key_new(rfc_key, 16, 0x1267)}};
    write_by_hand();
    check(size == 475, "how long it is", "by hand", size);
    is_due(&due);
    /* the last byte of the second output is another, and then the third number as well */
    file[405] ^= 1;
    due.differs = 1;
    due.first_record = 1;
    due.first_place = 203;
    is_due(&due);
    file[406 + 22] = 8;
    is_due(&due);
    /* the last record is cut */
    size--;
    due.number = 23;
    due.place = 433;
    due.records--;
    due.by_mode[4]--;
    due.by_answer[9]--;
    due.bytes_in -= 3;
    is_due(&due);
    /* nine keys; and a journal of 0 bytes */
    ring.count = 9;
    is_due(&(struct luossavin_replayed){.number = 26});
    ring.count = 1;
    size = 0;
    is_due(&(struct luossavin_replayed){0});
}

/* Calls that agree. */

/* Every mode both ways, done: what they add up to follows from the lengths. */
static void every_mode(void)
{
    uint64_t records = 0, in = 0, out = 0;
    struct luossavin_replayed r;
    size = 0;
    for (uint8_t mode = CFB; mode <= GCM; mode++) {
        for (size_t n = 0; n <= 40; n++) {
            const struct whole w = {.mode = mode, .data = n};
            write_answered(call(ENCRYPT, mode, n));
            write_answered(call(DECRYPT, mode, n));
            records += 2;
            in += n + room_needed(&w);
            out += room_needed(&w) + n;
        }
        r = ask_for(0, records, 0, "every mode both ways");
        check(r.differs == 0, "whether one differs", "every mode both ways", r.first_record);
        check(r.by_answer[0] == records && r.by_mode[mode] == 82, "its counts", "every mode both ways", mode);
        check(r.bytes_in == in && r.bytes_out == out, "its bytes", "every mode both ways", mode);
    }
}

/* A call that is answered with this number; 1 and 13 are those of a record that is no key. */
static struct entry answering(uint32_t number)
{
    static uint8_t blocks[48];
    struct entry e = call(DECRYPT, number == 4 || number == 9 ? GCM : CBC, 20);
    uint8_t last[16] = {0};
    memcpy(blocks, e.data.at, e.data.length);
    e.data.at = blocks;
    if (number == 3 || number == 15) {
        last[15] = number == 3 ? 17 : 2;
        seal_blocks(key, iv, last, 16, blocks);
        e.data.length = 16;
    }
    e.data.length = number == 2 ? 17 : number == 8 ? 0 : number == 9 ? 15 : e.data.length;
    blocks[35] ^= number == 4;
    e.room = number == 6 ? 31 : 32;
    e.mode = number == 7 ? 5 : e.mode;
    e.iv.length = number == 10 ? 12 : 16;
    e.key = number == 1 || number == 13 ? 0 : NUMBER;
    return e;
}

/* Every answer that there can be, each one once more than the one before. */
static void every_answer(uint32_t no_key)
{
    const uint32_t answers[] = {0, 2, 3, 4, 6, 7, 8, 9, 10, 15, no_key};
    struct luossavin_replayed r;
    size_t records = 0, in = 0;
    give_keys(2);
    ring.keys[1] = holding(key, (struct holder){no_key, 5, 0});
    size = 0;
    for (size_t i = 0; i < sizeof answers / sizeof *answers; i++) {
        for (size_t times = 0; times <= i; times++) {
            struct entry e = answering(answers[i]);
            write_answered(e);
            records++;
            in += e.data.length;
        }
    }
    r = ask_for(0, records, 0, "every answer");
    for (size_t i = 0; i < sizeof answers / sizeof *answers; i++) {
        check(r.by_answer[answers[i]] == i + 1, "how many with a number", "every answer", answers[i]);
    }
    check(r.differs == 0 && r.bytes_in == in && r.bytes_out == 20, "its bytes", "every answer", r.bytes_out);
}

static const uint8_t plenty[OUTPUT_LIMIT + 2];

/* Rooms about what is needed and far above, in every mode, of short data and of the longest. */
static void rooms(void)
{
    static const uint32_t far[] = {0, 16383, 16384, 16399, 16400, 16401, 65536, 4000000000, 0xffffffff};
    for (uint8_t mode = CFB; mode <= GCM; mode++) {
        for (int direction = ENCRYPT; direction <= DECRYPT; direction++) {
            struct entry e = call(direction, mode, 20);
            size = 0;
            for (uint32_t i = 0; i < 41 + 9; i++) {
                e.room = i < 41 ? i : far[i - 41];
                write_answered(e);
            }
            check(ask_for(0, 50, 0, "rooms").differs == 0, "whether one differs", "rooms", mode);
        }
        for (int i = 0; i < 2 * 9; i++) {
            struct entry e = call(ENCRYPT, mode, 0);
            e.direction = (uint8_t)(i % 2);
            e.data = (struct bytes){plenty, PART_LIMIT};
            e.room = far[i / 2];
            size = 0;
            write_answered(e);
            check(ask_for(0, 1, 0, "rooms, long data").differs == 0, "whether it differs", "rooms, long data", mode);
        }
    }
}

/* Every mode; every direction of a second record; either byte of the mark; and a byte behind the last record. */
static void every_value(unsigned byte)
{
    struct luossavin_replayed r;
    struct entry e = call(ENCRYPT, CFB, 3);
    size_t place;
    size = 0;
    write_answered(call(ENCRYPT, (uint8_t)byte, 3));
    r = ask_for(0, 1, 0, "a mode");
    check(r.by_mode[byte < 5 ? byte : 5] == 1 && r.by_answer[byte < 5 ? 0 : 7] == 1, "its counts", "a mode", byte);
    check(r.differs == 0 && r.bytes_in == 3, "its bytes", "a mode", byte);
    e.direction = (uint8_t)byte;
    place = write_answered(e);
    ask_for(byte < 2 ? 0 : 23, byte < 2 ? 2 : 1, byte < 2 ? 0 : place, "a direction");
    for (size_t i = 0; i < 2; i++) {
        int known = byte == (i == 0 ? 0x54 : 0x52);
        size = 0;
        write_answered(call(ENCRYPT, CFB, 3));
        file[i] = (uint8_t)byte;
        ask_for(known ? 0 : 23, (size_t)known, 0, "a mark");
    }
    file[1] = 0x52;
    file[size++] = (uint8_t)byte;
    ask_for(23, 1, size - 1, "one byte more");
}

/* Records that differ. */

/* An entry that was answered, recorded otherwise: its number, its output a byte shorter or longer, or a byte of it. */
enum { NUMBER_OTHER, SHORTER, LONGER, BYTE_OTHER, OTHERS };

static struct entry otherwise(struct entry e, int how)
{
    static uint8_t output[100];
    memcpy(output, e.output.at, e.output.length);
    e.output.at = output;
    output[e.output.length] = 0;
    e.number = (uint8_t)(e.number + (how == NUMBER_OTHER));
    e.output.length += how == LONGER;
    e.output.length -= how == SHORTER && e.output.length != 0;
    output[e.output.length / 2] ^= how == BYTE_OTHER;
    return e;
}

/* Each set of six calls is recorded otherwise. The first of them is told, and all are counted. */
static void differences(void)
{
    size_t places[SIX];
    for (unsigned i = 0; i < OTHERS << SIX; i++) {
        unsigned set = i % (1 << SIX), first = set == 0 ? 0 : (unsigned)__builtin_ctz(set);
        struct luossavin_replayed r;
        size = 0;
        for (int k = 0; k < SIX; k++) {
            struct entry e = answered_on(call(k % 2, (uint8_t)(k % 5), (size_t)k + 3), key);
            places[k] = add(set >> k & 1 ? otherwise(e, (int)(i >> SIX)) : e);
        }
        r = ask_for(0, SIX, 0, "some that differ");
        check(r.differs == (set != 0), "whether one differs", "some that differ", set);
        check(r.first_record == first, "the first one", "some that differ", set);
        check(r.first_place == (set == 0 ? 0 : places[first]), "its place", "some that differ", set);
        check(r.by_answer[0] == SIX && r.by_mode[0] == 2, "its counts", "some that differ", set);
    }
}

/* A refusal that is recorded with an output, and one with another number. */
static void refused_otherwise(void)
{
    for (unsigned i = 0; i < 256 * 3; i++) {
        struct entry e = answering(8);
        struct luossavin_replayed r;
        e.number = (uint8_t)(i / 3);
        e.output = (struct bytes){rfc_text, i % 3};
        size = 0;
        add(e);
        r = ask_for(0, 1, 0, "a recorded refusal");
        check(r.differs == (e.number != 8 || i % 3 != 0), "whether it differs", "a recorded refusal", e.number);
        check(r.by_answer[8] == 1 && r.bytes_out == 0, "its answer", "a recorded refusal", e.number);
    }
}

/* Every byte of six calls another, each bit and some values, in a journal that ends with its last record and in one that has a byte more.
 * */
static void every_byte(void)
{
    static const uint8_t by[] = {1, 2, 4, 8, 16, 32, 64, 128, 0xff, 0x06, 0x1c};
    size_t places[SIX + 1];
    give_keys(2);
    write_six(places);
    for (size_t i = 0; i < size; i++) {
        for (size_t j = 0; j < sizeof by; j += is_sparse ? 4 : 1) {
            file[i] ^= by[j];
            ask();
            file[size++] = 0x54;
            ask();
            size--;
            file[i] ^= by[j];
        }
    }
}

/* Records that are cut. */

/* At every byte of six calls, with keys and without. */
static void cuts(void)
{
    size_t places[SIX + 1], whole;
    give_keys(1);
    write_six(places);
    whole = size;
    for (size_t i = 0; i < SIX; i++) {
        for (size = places[i]; size < places[i + 1]; size++) {
            ask_for(size == places[i] ? 0 : 23, i, size == places[i] ? 0 : places[i], "every cut");
        }
    }
    size = whole;
    ask_for(0, SIX, 0, "no cut");
    for (size_t i = 0; i <= 2 * whole + 1; i++) {
        give_keys(i % 2 * 2);
        size = i / 2;
        ask();
    }
}

static void put_length(size_t at, uint32_t n)
{
    for (int b = 0; b < 4; b++) {
        file[at + b] = (uint8_t)(n >> (24 - 8 * b));
    }
}

/* The four lengths and the room of the second of three calls, and of the second of two, which is the last, say all about what is left, and
 * what would say the same in fewer bytes or once a sum came round. */
static void lengths(void)
{
    static const uint32_t fronts[] = {0, 0x20, 0x40, 0x60, 0x100, 0xff00, 0x10000, 0x01000000, 0x7ffffff0, 0x80000000, 0xee6b2800,
        0xff000000, 0xffff0000, 0xffffff80, 0xffffffa0, 0xffffffc0, 0xffffffe0};
    enum { ROOM_FIELD = 3, FIELDS = 5, SAID = 32 * sizeof fronts / sizeof *fronts };
    static const size_t right[FIELDS] = {sizeof label, 4, 16, 100, 4}, fields[FIELDS] = {6, 16, 24, 44, 49};
    give_keys(1);
    for (size_t i = 0; i < 2 * FIELDS * SAID; i++) {
        uint32_t said = fronts[i % SAID / 32] + i % 32;
        size_t field = i / SAID % FIELDS, is_last = i / SAID / FIELDS, place;
        size = 0;
        write_answered(call(ENCRYPT, OFB, 1));
        place = write_answered(call(ENCRYPT, CFB, 4));
        if (!is_last) {
            write_answered(call(ENCRYPT, CTR, 2));
        }
        put_length(place + fields[field], said);
        if (said == right[field] || (field == ROOM_FIELD && said > 0xffff)) {
            ask_for(0, 3 - is_last, 0, "what a length says");
        } else if (said > 0xffff) {
            ask_for(23, 1, place, "what a length says");
        } else {
            ask();
        }
    }
}

/* A record that is cut, of which a sum in 32 bits would lead back into its own label. There the rest of a record seems
 * to stand, and behind it another, which ends with the file. */
static void sums(void)
{
    size = 0;
    APPEND(0x54, 0x52, 0, 9, 0x12, 0x67, 0, 0, 0, 23);
    APPEND(0, 0, 0, 0, 0, 0, 0, 0, 7, 0, 0, 0, 0);
    APPEND(0x54, 0x52, 0, 9, 0x12, 0x67, 0, 0, 0, 4);
    APPEND(0xff, 0xff, 0xff, 0xe5);
    APPEND(0, 0, 0, 0, 0, 0, 0, 0, 0, 0, 0, 0, 7, 0, 0, 0, 0);
    ask_for(23, 0, 0, "a sum that comes round");
}

/* Limits. */

/* A call of that mode whose label, data, IV and output have so many bytes. */
static struct entry long_call(uint8_t mode, size_t l, size_t d, size_t i, size_t o)
{
    return (struct entry){.mode = mode, .key = NUMBER, .label = {plenty, l}, .data = {plenty, d}, .iv = {plenty, i}, .room = 0xffffffff,
        .output = {plenty, o}};
}

/* Every part at its limit, and one byte over it, in every mode; whole, cut by a byte, cut off, and of an unknown key. */
static void limits(void)
{
    static const uint8_t modes[] = {CFB, OFB, CTR, CBC, GCM, 5, 200};
    for (int i = 0; i < 16 * 2 * 7; i++) {
        int over = i / 14, unknown = i / 7 % 2;
        struct entry e = long_call(modes[i % 7], PART_LIMIT + (over & 1), PART_LIMIT + (over >> 1 & 1), PART_LIMIT + (over >> 2 & 1),
            OUTPUT_LIMIT + (over >> 3));
        uint32_t number = over ? 24 : unknown ? 25 : 0;
        size_t place;
        e.key = (uint16_t)(NUMBER + unknown);
        size = 0;
        write_answered(call(ENCRYPT, CFB, 3));
        place = add(e);
        ask_for(number, number ? 1 : 2, number ? place : 0, "parts at their limits");
        size--;
        ask_for(23, 1, place, "parts at their limits, cut");
        size = place + 10;
        ask_for(23, 1, place, "parts at their limits, cut off");
    }
}

/* Each part by itself, of every length about its limit. */
static void each_limit(void)
{
    for (size_t n = PART_LIMIT - 1; n <= OUTPUT_LIMIT + 1; n++) {
        for (int i = 0; i < 4; i++) {
            int over = n > (i == 3 ? OUTPUT_LIMIT : PART_LIMIT);
            size = 0;
            add(long_call(200, i == 0 ? n : 0, i == 1 ? n : 0, i == 2 ? n : 0, i == 3 ? n : 0));
            ask_for(over ? 24 : 0, !over, 0, "a part at its limit");
        }
    }
}

/* Keys. */

/* Every number against eight keys, and against fewer of them; no other is known. */
static void key_numbers(void)
{
    for (size_t count = 0; count <= MOST_KEYS; count += count ? 7 : 1) {
        give_keys(count);
        for (unsigned number = 0; number < 65536; number++) {
            struct entry e = call(ENCRYPT, 5, 0);
            int known = 0;
            for (size_t i = 0; i < count; i++) {
                known |= numbers[i] == number;
            }
            e.key = (uint16_t)number;
            size = 0;
            write_answered(e);
            ask_for(known ? 0 : 25, (size_t)known, 0, "a key's number");
        }
    }
}

/* Each key of eight: what was recorded on it agrees, and what was recorded on another differs. */
static void own_keys(void)
{
    give_keys(MOST_KEYS);
    for (int i = 0; i < MOST_KEYS * MOST_KEYS; i++) {
        struct entry e = answered_on(call(ENCRYPT, CFB, 16), eight[i % MOST_KEYS]);
        struct luossavin_replayed r;
        e.key = numbers[i / MOST_KEYS];
        size = 0;
        add(e);
        r = ask_for(0, 1, 0, "a call on another key");
        check(r.differs == (i % MOST_KEYS != i / MOST_KEYS), "whether it differs", "a call on another key", (size_t)i);
    }
}

/* How many keys there are, with a call on each of eight. Those from the count on are not looked at. */
static void key_counts(void)
{
    static const size_t wild[] = {9, 10, 255, 256, 65536 + 1, ((size_t)1 << 32) + 1, SIZE_MAX / 2 + 2, SIZE_MAX - 7, SIZE_MAX};
    size_t places[MOST_KEYS + 1], whole;
    give_keys(MOST_KEYS);
    size = 0;
    for (int i = 0; i < MOST_KEYS; i++) {
        struct entry e = call(ENCRYPT, CTR, 9);
        e.key = numbers[i];
        places[i] = write_answered(e);
    }
    whole = size;
    places[MOST_KEYS] = 0;
    for (size_t count = 0; count <= MOST_KEYS; count++) {
        give_keys(count);
        ask_for(count < MOST_KEYS ? 25 : 0, count, places[count], "how many keys");
    }
    for (size_t i = 0; i < sizeof wild / sizeof *wild; i++) {
        give_keys(wild[i]);
        size = whole;
        ask_for(26, 0, 0, "how many keys");
        size = 0;
        ask_for(26, 0, 0, "how many keys, and no record");
    }
}

/* Of every count of keys, one is retired, two have one number, or two are no keys. */
static void bad_keys(void)
{
    static const uint8_t marks[] = {1, 2, 128, 255};
    /* refusal 23 would come next */
    size = 0;
    APPEND(0x54);
    for (size_t count = 1; count <= MOST_KEYS; count++) {
        for (size_t i = 0; i < MOST_KEYS; i++) {
            uint32_t due = i < count ? 26 : 23;
            for (size_t m = 0; m < sizeof marks; m++) {
                give_keys(count);
                ring.keys[i].retired = marks[m];
                ask_for(due, 0, 0, "a retired key");
                ring.keys[i].answer = 1;
                ask_for(due, 0, 0, "no key that is retired");
            }
            for (size_t j = 0; j < i; j++) {
                give_keys(count);
                ring.keys[i].number = numbers[j];
                ask_for(due, 0, 0, "a number twice");
                ring.keys[i].answer = 7;
                ask_for(23, 0, 0, "the number of a key in no key");
                ring.keys[j].answer = 13;
                ask_for(due, 0, 0, "two that are no keys");
                ring.keys[j].answer = 0;
                ring.keys[j].number = 0;
                ask_for(due, 0, 0, "no key, and a key of number 0");
            }
        }
    }
}

/* Records of every kind as the first two keys, and counts that are none. */
static void key_rings(void)
{
    static const size_t counts[] = {0, 1, 2, 7, 8, 9, 10, 256, (size_t)1 << 32, ((size_t)1 << 32) + 1, SIZE_MAX / 2 + 1, SIZE_MAX - 1,
        SIZE_MAX};
    size_t places[SIX + 1];
    give_keys(1);
    write_six(places);
    for (size_t i = 0; i < HOLDERS * HOLDERS * sizeof counts / sizeof *counts; i++) {
        give_keys(counts[i / HOLDERS / HOLDERS]);
        ring.keys[0] = record(holders[i % HOLDERS]);
        ring.keys[1] = record(holders[i / HOLDERS % HOLDERS]);
        ask();
    }
}

/* What every record answers, as a key among others: by what it is, and not by the number that it holds. A mode that is
 * none comes before. */
static void one_record(struct holder fields)
{
    struct luossavin_replayed r;
    uint32_t answer = fields.answer == 0 ? 0 : fields.answer == 13 ? 13 : 1;
    int known = fields.answer == 0 || fields.number == 0;
    struct entry e = call(ENCRYPT, OFB, 7);
    give_keys(3);
    ring.keys[1] = holding(key, fields);
    ring.keys[2].number = 77;
    size = 0;
    e.key = fields.answer == 0 ? fields.number : 0;
    write_answered(e);
    e.mode = 5;
    write_answered(e);
    e.mode = OFB;
    e.key = 77;
    write_answered(e);
    if (fields.retired != 0) {
        ask_for(26, 0, 0, "a made-up record");
        return;
    }
    r = ask_for(0, 3, 0, "a made-up record");
    check(r.differs == 0, "whether one differs", "a made-up record", r.first_record);
    check(r.by_answer[answer] == (answer ? 1 : 2), "its answer", "a made-up record", answer);
    check(r.by_answer[7] == 1, "its answer in mode 5", "a made-up record", answer);
    check(r.bytes_in == 21 && r.bytes_out == (answer ? 7 : 14), "its bytes", "a made-up record", r.bytes_out);
    e.key = fields.number;
    size = 0;
    write_answered(e);
    ask_for(known ? 0 : 25, (size_t)known, 0, "a made-up record's number");
}

/* Refusals, with every later one there as well. */

enum { RIGHT, UNMARKED, SECOND_MARK, DIRECTION, CUT, WRONGS };
enum { NO_PART, LABEL, DATA, IV, OUTPUT, PARTS };

/* Two calls, of which the second differs, and then one with so much wrong. */
static size_t write_wrong(int wrong, int part, int unknown)
{
    size_t place;
    struct entry e = long_call(200, PART_LIMIT + (part == LABEL), PART_LIMIT + (part == DATA), PART_LIMIT + (part == IV),
        OUTPUT_LIMIT + (part == OUTPUT));
    size = 0;
    write_answered(call(ENCRYPT, CFB, 5));
    add(otherwise(answered_on(call(ENCRYPT, CBC, 6), key), BYTE_OTHER));
    e.direction = wrong == DIRECTION ? 2 : 1;
    e.key = unknown ? 3 : NUMBER;
    place = add(e);
    file[place] ^= wrong == UNMARKED;
    file[place + 1] ^= wrong == SECOND_MARK;
    size -= wrong == CUT;
    return place;
}

static void refusals(void)
{
    for (int i = 0; i < 4 * WRONGS * PARTS * 2; i++) {
        int bad = i % 4, wrong = i / 4 % WRONGS, part = i / 4 / WRONGS % PARTS, unknown = i / 4 / WRONGS / PARTS;
        uint32_t number = bad ? 26 : wrong ? 23 : part ? 24 : unknown ? 25 : 0;
        struct luossavin_replayed r;
        size_t place;
        give_keys(2);
        place = write_wrong(wrong, part, unknown);
        ring.count = bad == 1 ? 9 : 2;
        ring.keys[0].retired = bad == 2;
        ring.keys[1].number = bad == 3 ? NUMBER : 1;
        r = ask_for(number, bad ? 0 : number ? 2 : 3, bad || !number ? 0 : place, "what comes first");
        check(r.differs == !bad && r.first_record == !bad, "the first difference", "what comes first", number);
        check(r.bytes_in == (bad ? 0 : number ? 11 : 11 + PART_LIMIT), "its bytes", "what comes first", number);
    }
}

/* Journals that are joined. */

/* The report of two journals, of which the second begins behind so many records and bytes, is that of each added up. */
static void add_up(const struct luossavin_replayed *a, const struct luossavin_replayed *b, struct luossavin_replayed *both, size_t records,
    size_t bytes)
{
    struct luossavin_replayed sum = *a;
    sum.records += b->records;
    for (int i = 0; i < 6; i++) {
        sum.by_mode[i] += b->by_mode[i];
    }
    for (int i = 0; i < LUOSSAVIN_NUMBERS; i++) {
        sum.by_answer[i] += b->by_answer[i];
    }
    sum.bytes_in += b->bytes_in;
    sum.bytes_out += b->bytes_out;
    if (!a->differs && b->differs) {
        sum.differs = 1;
        sum.first_record = records + b->first_record;
        sum.first_place = bytes + b->first_place;
    }
    check(difference_replayed(both, &sum) == NULL, "two journals joined", "their reports added up", records);
}

/* Six calls, of which one differs or none, cut between any two of them. */
static void joined(void)
{
    static uint8_t whole[2000];
    size_t places[SIX + 1];
    give_keys(1);
    for (size_t i = 0; i < (SIX + 1) * (SIX + 1); i++) {
        size_t other = i / (SIX + 1), from = i % (SIX + 1);
        struct luossavin_replayed a, b, both;
        write_six(places);
        if (other < SIX) {
            /* its mode */
            file[places[other] + 3] = 5;
        }
        memcpy(whole, file, size);
        both = ask_for(0, SIX, 0, "two journals joined");
        size = places[from];
        a = ask_for(0, from, 0, "the first of two journals");
        size = places[SIX] - places[from];
        memcpy(file, whole + places[from], size);
        b = ask_for(0, SIX - from, 0, "the second of two journals");
        add_up(&a, &b, &both, from, places[from]);
    }
}

/* Journals that are drawn. */

/* As many keys as may be, or more; some are no keys, retired, or have another's number. */
static void draw_keys(void)
{
    give_keys(1 + below(MOST_KEYS));
    for (size_t i = 0; i < MOST_KEYS; i++) {
        struct luossavin_key *k = &ring.keys[i];
        k->answer = below(30) ? k->answer : (uint32_t)below(15);
        k->retired = below(200) ? 0 : (uint8_t)draw();
        k->number = below(200) ? k->number : numbers[below(MOST_KEYS)];
    }
    ring.count += below(60) ? 0 : 9;
}

/* A call of any kind; what is decrypted was mostly encrypted. */
static struct entry draw_call(void)
{
    struct entry e = call((int)below(2), (uint8_t)(below(10) ? below(5) : draw()), below(65));
    e.data.length = below(8) ? e.data.length : below(65);
    e.label = below(8) ? e.label : (struct bytes){rfc_sealed, below(81)};
    e.iv.length = below(8) ? 16 : below(18);
    e.room = (uint32_t)(below(4) ? 90 : below(2) ? below(90) : (uint32_t)draw() >> below(32));
    e.key = below(4) ? NUMBER : below(4) ? numbers[below(MOST_KEYS)] : below(2) ? 0 : (uint16_t)draw();
    return e;
}

/* A byte, or the end. */
static void damage(void)
{
    size_t way = below(8);
    if (way == 0) {
        file[below(size)] ^= (uint8_t)(1 << below(8));
    } else if (way == 1) {
        file[below(size)] = (uint8_t)draw();
    } else if (way == 2) {
        size -= below(size < 40 ? size : 40);
    } else if (way == 3) {
        file[size++] = (uint8_t)draw();
    } else if (way == 4) {
        add(long_call(200, below(2) * PART_LIMIT, PART_LIMIT + below(2), below(2) * PART_LIMIT, OUTPUT_LIMIT + below(2)));
        size -= below(4) ? 0 : 1 + below(size - 1);
    }
}

static void drawn(void)
{
    unsigned long answers[NUMBERS] = {0}, differ = 0;
    int count = is_sparse ? 500 : 15000;
    seed = 20261116;
    for (int i = 0; i < count; i++) {
        struct luossavin_replayed r;
        draw_keys();
        size = 0;
        for (size_t records = 1 + below(6); records > 0; records--) {
            write_answered(draw_call());
        }
        damage();
        r = ask();
        answers[r.number]++;
        differ += r.differs;
    }
    check(is_sparse || (answers[0] > 999 && answers[23] > 999 && answers[24] > 99 && answers[25] > 999 && answers[26] > 99 && differ > 99),
        "every answer", "journals that are drawn", answers[24]);
}

/* One of more than 4 GiB: a megabyte of records, over and over, which each have 16 KiB. Behind them one differs, and
 * then one has no direction. */
enum { MIB = 1 << 20, MIBS = 4200, EACH = 16384 };

static uint8_t *map(uint8_t *at, size_t length, int flags, int from)
{
    uint8_t *pages = mmap(at, length, PROT_READ | PROT_WRITE, flags, from, 0);
    if (pages == MAP_FAILED) {
        perror("a long journal");
        exit(2);
    }
    return pages;
}

static uint8_t *map_long(void)
{
    size_t all = (size_t)MIBS * MIB;
    uint8_t *pages = map(NULL, all, MAP_PRIVATE | MAP_ANONYMOUS | MAP_NORESERVE, -1);
    int megabyte = memfd_create("journal", 0);
    struct entry e = {.direction = ENCRYPT, .mode = 200, .key = NUMBER, .data = {plenty, EACH - BARE}, .number = 7};
    size = write_entry(&e, file);
    for (size_t at = 0; at < MIB; at += EACH) {
        if (megabyte < 0 || size != EACH || write(megabyte, file, EACH) != EACH) {
            perror("a long journal");
            exit(2);
        }
    }
    for (size_t at = 0; at < all; at += MIB) {
        map(pages + at, MIB, MAP_PRIVATE | MAP_FIXED, megabyte);
    }
    close(megabyte);
    return pages;
}

static void over_4_gib(void)
{
    uint8_t *pages = map_long(), *last = pages + (size_t)(MIBS - 1) * MIB;
    uint64_t in_front = (uint64_t)(MIBS - 1) * (MIB / EACH), records = in_front + 20;
    struct luossavin_replayed got, due = {.number = 23, .differs = 1, .place = records * EACH,
        .first_record = in_front + 10, .first_place = (in_front + 10) * EACH, .records = records,
        .by_mode = {[5] = records}, .by_answer = {[7] = records}, .bytes_in = records * (EACH - BARE)};
    give_keys(1);
    /* its number stands before the length of an output that is empty */
    last[11 * EACH - 4 - 1] = 8;
    last[20 * EACH + 2] = 2;
    got = luossavin_replay(ring, pages, (size_t)MIBS * MIB);
    judged(due.number, difference_replayed(&got, &due));
    munmap(pages, (size_t)MIBS * MIB);
}

void journals(void)
{
    set_up_eight();
    by_hand();
    give_keys(1);
    every_mode();
    every_answer(1);
    every_answer(13);
    give_keys(1);
    rooms();
    for (unsigned byte = 0; byte < 256; byte++) {
        every_value(byte);
    }
    refused_otherwise();
    every_byte();
    cuts();
    lengths();
    sums();
    own_keys();
    key_counts();
    bad_keys();
    key_rings();
    every_record(one_record);
    joined();
    drawn();
    if (!is_sparse) {
        give_keys(1);
        differences();
        limits();
        each_limit();
        refusals();
    }
    /* by what bytes say, and not by where they stand: once */
    if (!is_sparse && place != FENCE_BEFORE) {
        key_numbers();
    }
    /* its pages are its own: no need of it for either side of the fence */
    if (with_limits && place == FENCE_BEHIND) {
        over_4_gib();
    }
}
