/* One Ctr message among several workers: ranges from any byte on against that stretch of the single call, also where a counter comes
 * round; what the planner makes; plans that are accepted, and every way to break one; work by a plan, and its ranges in any order, against
 * the single call; every refusal with every later one there as well; and every record, size, offset, room and plan. */
#include "test.h"

#include "wrap.h"

#include <stdio.h>
#include <string.h>

enum { SHORT = 2000 };

/* A text as long as may be, the IV, and what the single call makes of the text under it. */
static uint8_t text[LIMIT], whole[LIMIT], under[32];

/* What runs. */
static struct stretch now;

static void describe_stretch(char *words, size_t room)
{
    int n = snprintf(words, room, "%s, %s, record %u, %u, %u, iv %zu, offset %zu, data %zu, room %zu", now.plan ? "by a plan" : "range",
        now.decrypt ? "decrypt" : "encrypt", now.key.answer, now.key.number, now.key.retired, now.iv, now.offset, now.data, now.room);
    if (now.plan != NULL) {
        snprintf(words + n, room - (size_t)n, ", %zu pieces, the first %zu bytes from %zu on", now.plan->count, now.plan->lengths[0],
            now.plan->starts[0]);
    }
}

/* What the single call makes of the first n bytes, and whether a counter came round there. */
static void make_whole(const uint8_t iv[16], size_t n, int round)
{
    struct luossavin_answer a;
    memcpy(under, iv, 16);
    a = luossavin_encrypt(CTR, key, NULL, 0, text, n, under, 16, whole, n);
    check(a.number == 0 && a.length == n && a.came_round == round, "the single call", "a text among workers", a.came_round);
}

/* A call answers what the rules say, and its output is that stretch of the single call's; or, back, of the text. */
static void try(struct stretch s, int back)
{
    struct luossavin_answer due = answer_to_stretch(&s);
    const uint8_t *from = (back ? whole : text) + (due.number == 0 ? s.offset : 0),
        *to = (back ? text : whole) + (due.number == 0 ? s.offset : 0);
    struct buffer lent_iv = lend_input(s.iv, s.iv), data = lend_input(s.data, due.number == 0 ? LIMIT : LIMIT / 2), out = lend(s.room,
        LENT);
    memcpy(lent_iv.bytes, under, s.iv);
    shut(lent_iv);
    if (due.number == 0) {
        memcpy(data.bytes, from, s.data);
    }
    shut(data);
    now = s;
    describe = describe_stretch;
    if (s.plan != NULL) {
        holds_now(luossavin_plan_accepts(*s.plan, s.data) == is_accepted(s.plan, s.data) ? NULL : "whether the plan is accepted");
    }
    if (judge(call_stretch(&s, record(s.key), lent(lent_iv), lent(data), lent(out)), due) && wrote_only(out, due.length)) {
        holds_now(memcmp(out.bytes, to, due.length) == 0 ? NULL : "its output is not the single call's");
        holds_now((due.number == 0 ? memcmp(data.bytes, from, s.data) == 0 : holds_fill(data)) && memcmp(lent_iv.bytes, under, s.iv) == 0
            ? NULL : "it changes an input");
    }
    give_back(lent_iv);
    give_back(data);
    give_back(out);
}

static struct stretch in_order(size_t offset, size_t n)
{
    return (struct stretch){.key = sound, .iv = 16, .offset = offset, .data = n, .room = n};
}

/* Both ways; a retired key decrypts the same and encrypts nothing. */
static void both_ways(struct stretch s)
{
    for (int is_old = 0; is_old < 2; is_old++) {
        s.key.retired = (uint8_t)is_old;
        for (s.decrypt = 0; s.decrypt < 2; s.decrypt++) {
            try(s, 0);
        }
        s.decrypt = 1;
        try(s, 1);
    }
}

/* Ranges. */

static void ranges(void)
{
    static const size_t lengths[] = {0, 1, 2, 15, 16, 17, 31, 32, 33, 47, 48, 49, 255, 256, 257, 1000};
    struct stretch roomy = in_order(33, 40);
    for (size_t offset = 0; offset <= 300; offset += is_sparse ? 31 : offset < 66 || offset > 250 ? 1 : 7) {
        for (size_t i = 0; i < sizeof lengths / sizeof *lengths; i++) {
            both_ways(in_order(offset, lengths[i]));
        }
    }
    both_ways(in_order(1, SHORT - 1));
    both_ways(in_order(SHORT - 17, 17));
    /* a byte more of room than is needed is left */
    roomy.room++;
    both_ways(roomy);
}

/* Offsets at the limit, and those whose sum with the length would come round, into room and into none. */
static void edges(void)
{
    static const size_t offsets[] = {LIMIT - 257, LIMIT - 256, LIMIT - 33, LIMIT - 17, LIMIT - 16, LIMIT - 15, LIMIT - 1, LIMIT,
        LIMIT + 1, 65536, 65535, 4096 - 1, 1048576 + 5, LIMIT / 2 - 3, LIMIT / 2 + 16, LIMIT + 1, LIMIT + 16, (size_t)1 << 32,
        SIZE_MAX / 2, SIZE_MAX / 2 + 1, SIZE_MAX - 16, SIZE_MAX - 15, SIZE_MAX - 1, SIZE_MAX};
    struct stretch s;
    for (size_t i = 0; i < sizeof offsets / sizeof *offsets; i++) {
        for (size_t n = 0; n <= 34; n++) {
            s = in_order(offsets[i], n);
            check((answer_to_stretch(&s).number == 5) == (offsets[i] > LIMIT || offsets[i] + n > LIMIT), "5", "an offset past the limit",
                i);
            for (int way = 0; way < 4; way++) {
                s.decrypt = way % 2;
                s.room = way < 2 ? n : 0;
                try(s, 0);
            }
        }
    }
    s = in_order(LIMIT / 2 + 5, LIMIT / 2 - 5);
    try(s, 0);
    s.data++;
    try(s, 0);
    s.offset = 0;
    s.data = LIMIT + 1;
    try(s, 0);
}

/* Plans. */

/* Pieces that follow one another, of these lengths. */
static struct luossavin_plan following(const size_t *lengths, size_t count)
{
    struct luossavin_plan p = {.count = count};
    for (size_t i = 0, at = 0; i < count && i < WORKERS; at += lengths[i++]) {
        p.starts[i] = at;
        p.lengths[i] = lengths[i];
    }
    return p;
}

/* The check answers as the rules do; whether it says yes. */
static int accepts(const struct luossavin_plan *p, size_t n, const char *what)
{
    int yes = luossavin_plan_accepts(*p, n);
    check(yes == is_accepted(p, n), what, "whether a plan is accepted", n);
    return yes;
}

static void is(int yes, const struct luossavin_plan *p, size_t n, const char *what)
{
    check(accepts(p, n, what) == yes, what, yes ? "it is accepted" : "it is not accepted", n);
}

static const size_t planned_sizes[] = {0, 1, 15, 16, 17, 100, 1000, 1023, 1024, 1025, 65536 + 5, LIMIT - 1, LIMIT};
enum { PLANNED = sizeof planned_sizes / sizeof *planned_sizes };

/* Where a number is given, it is the refusal that is due. */
static struct luossavin_plan is_made(size_t n, size_t crew, uint32_t number)
{
    struct luossavin_planned got = luossavin_plan_make(n, crew), due = answer_to_planner(n, crew);
    check(difference_planned(&got, &due) == NULL, "what is made", "the planner", n);
    check(due.answer.number == number, "its number", "the planner", number);
    return got.plan;
}

static void planner(void)
{
    static const size_t over[] = {LIMIT + 1, (size_t)1 << 32, SIZE_MAX - 15, SIZE_MAX};
    static const size_t crowds[] = {0, 65, 66, 128, 256, (size_t)1 << 32, ((size_t)1 << 32) + 1, SIZE_MAX};
    for (size_t w = 1; w <= WORKERS; w++) {
        for (size_t i = 0; i < PLANNED; i++) {
            size_t n = planned_sizes[i];
            struct luossavin_plan p = is_made(n, w, 0);
            check(p.count <= w, "no more pieces than workers", "the planner", w);
            is(1, &p, n, "the planner's");
            is(0, &p, n + 1, "the planner's, for a byte more");
            is(0, &p, n - 1, "the planner's, for a byte less");
        }
        for (size_t i = 0; i < 4; i++) {
            is_made(over[i], w, 5);
        }
    }
    for (size_t i = 0; i < sizeof crowds / sizeof *crowds; i++) {
        for (size_t j = 0; j < PLANNED + 4; j++) {
            is_made(j < PLANNED ? planned_sizes[j] : over[j - PLANNED], crowds[i], 17);
        }
    }
}

/* Two that are worked out by hand: 7 blocks among 3, and 5 among 4, who are one too many. */
static void by_hand(void)
{
    static const size_t three[] = {48, 48, 4}, four[] = {32, 32, 16};
    struct luossavin_planned got = luossavin_plan_make(100, 3), due = {.plan = following(three, 3)};
    check(difference_planned(&got, &due) == NULL, "100 bytes among 3", "the planner", got.plan.count);
    got = luossavin_plan_make(80, 4);
    due.plan = following(four, 3);
    check(difference_planned(&got, &due) == NULL, "80 bytes among 4", "the planner", got.plan.count);
}

/* Every entry of a plan another, and every count and length of the data. */
static void broken(const struct luossavin_plan *p, size_t n, const char *what)
{
    static const size_t by[] = {1, 15, 16, 32, (size_t)1 << 63, -(size_t)1, -(size_t)15, -(size_t)16, -(size_t)32};
    struct luossavin_plan other = *p;
    is(1, p, n, what);
    for (size_t j = 0; j < sizeof by / sizeof *by; j++) {
        is(0, p, n + by[j], what);
        for (size_t i = 0; i < p->count; i++) {
            other.starts[i] += by[j];
            is(0, &other, n, what);
            is(0, &other, n + by[j], what);
            other.lengths[i] -= by[j];
            is(0, &other, n, what);
            other = *p;
            other.lengths[i] += by[j];
            is(0, &other, n, what);
            accepts(&other, n + by[j], what);
            /* and the starts behind it as well: a piece that is longer, and no gap or overlap */
            for (size_t k = i + 1; k < p->count; k++) {
                other.starts[k] += by[j];
            }
            is(0, &other, n, what);
            accepts(&other, n + by[j], what);
            other = *p;
        }
    }
    for (size_t count = 0; count <= WORKERS + 2; count++) {
        other.count = count;
        check(accepts(&other, n, what) == (count == p->count), what, "so many of its pieces", count);
    }
    other.count = SIZE_MAX;
    is(0, &other, n, what);
    other.count = p->count + ((size_t)1 << 32);
    is(0, &other, n, what);
    /* what is behind the last piece is not looked at */
    other = *p;
    memset(other.starts + p->count, 0xff, (WORKERS - p->count) * sizeof *other.starts);
    memset(other.lengths + p->count, 0xee, (WORKERS - p->count) * sizeof *other.lengths);
    is(1, &other, n, what);
}

/* Uneven ones, 64 and 65 pieces, and plans of which every entry may be another. */
static void hand_made(void)
{
    static const size_t uneven[] = {16, 160, 48, 5};
    size_t full[WORKERS + 1];
    struct luossavin_plan p = following(uneven, 4);
    broken(&p, 229, "uneven pieces");
    p = following(uneven + 3, 1);
    broken(&p, 5, "one piece");
    p = following(NULL, 0);
    broken(&p, 0, "no piece");
    for (size_t i = 0; i <= WORKERS; i++) {
        full[i] = i == 63 ? 7 : 16;
    }
    p = following(full, 64);
    broken(&p, 63 * 16 + 7, "64 pieces");
    full[63] = 16;
    p = following(full, 65);
    is(0, &p, 65 * 16, "65 pieces");
    is(0, &p, 64 * 16, "65 pieces, for 64");
    p.count = 64;
    is(1, &p, 64 * 16, "64 whole pieces");
    p = following(uneven, 3);
    p.starts[2] = 64;
    is(0, &p, 112, "overlapping pieces");
    p.starts[2] = 192;
    is(0, &p, 240, "a gap between pieces");
}

/* The ways to break a plan one by one, and sums that come round; there is an answer for every n. */
static void written(void)
{
    static const size_t half = (size_t)1 << 63;
    static const struct { int yes; size_t n, count, lengths[3]; } rows[] = {
        /* no piece, an empty one, and an inner one of 15 bytes */
        {0, 1, 0, {0}}, {0, SIZE_MAX, 0, {0}}, {0, 32, 3, {16, 0, 16}}, {0, 16, 2, {16, 0}}, {0, 16, 2, {0, 16}}, {0, 0, 1, {0}},
        {0, 48, 3, {16, 15, 17}},
        /* sums of 2^64, and what is below */
        {0, 0, 2, {half, half}}, {0, SIZE_MAX, 2, {half, half}}, {0, 16, 3, {half, half, 16}}, {1, half, 1, {half}},
        {1, SIZE_MAX, 2, {half, half - 1}}, {1, SIZE_MAX, 2, {SIZE_MAX - 15, 15}}, {1, SIZE_MAX, 1, {SIZE_MAX}},
        {0, 0, 2, {SIZE_MAX - 15, 16}}, {0, 32, 3, {SIZE_MAX - 15, 16, 32}}};
    struct luossavin_plan p;
    for (size_t i = 0; i < sizeof rows / sizeof *rows; i++) {
        p = following(rows[i].lengths, rows[i].count);
        check(accepts(&p, rows[i].n, "a plan that is written down") == rows[i].yes, "whether it is accepted",
            "a plan that is written down", i);
    }
    p = following((const size_t[]){16, 15, 17}, 3);
    p.lengths[1] = 32;
    is(0, &p, 65, "pieces that overlap by 17 bytes");
}

/* Small plans of all kinds. */
static void drawn(void)
{
    static const size_t few[] = {16, 32, 48, 16, 160, 1, 15, 0};
    uint64_t state = 20261115;
    unsigned yes = 0;
    for (int i = 0; i < 20000; i++) {
        size_t lengths[5], draw[8], n = 0;
        for (int j = 0; j < 8; j++) {
            state = state * 6364136223846793005 + 1442695040888963407;
            draw[j] = state >> 40;
        }
        for (int j = 0; j < 5; j++) {
            lengths[j] = few[draw[j] % 8 % (draw[j] % 5 ? 5 : 8)];
        }
        struct luossavin_plan p = following(lengths, draw[5] % 6);
        for (size_t j = 0; j < p.count; j++) {
            n += lengths[j];
        }
        p.starts[draw[6] % 5] += draw[6] / 8 % 4 ? 0 : 16;
        yes += accepts(&p, n + (draw[7] % 4 ? 0 : draw[7] / 4 % 3 - 1), "a plan that is drawn");
    }
    check(yes > 2000 && yes < 18000, "some are accepted and some not", "plans that are drawn", yes);
}

/* Work by a plan. */

/* By the plan at once, and range by range from the last to the first, in one buffer. */
static void work_by(const struct luossavin_plan *p, size_t n)
{
    struct stretch s = in_order(0, n);
    struct buffer out = lend(n, LENT);
    s.plan = p;
    both_ways(s);
    for (size_t i = p->count; i-- > 0;) {
        size_t at = p->starts[i], length = p->lengths[i];
        struct buffer front = out;
        struct luossavin_answer a = luossavin_ctr_range(key, false, under, 16, at, text + at, length, out.bytes + at, length);
        check(done(a, length), "work by a plan", "a range of a plan", i);
        front.size = (size_t)(out.bytes + at - out.memory);
        check(untouched(front, 0), "work by a plan", "it keeps to its part", i);
    }
    check(memcmp(out.bytes, whole, n) == 0 && untouched(out, n), "work by a plan", "its ranges, the last one first", n);
    give_back(out);
}

static void work(size_t most)
{
    static const size_t crowds[] = {1, 2, 3, 4, 5, 7, 16, 63, 64};
    static const size_t uneven[] = {16, 160, 48, 16, 5};
    struct luossavin_plan p = following(uneven, 5);
    work_by(&p, 245);
    p = following(uneven, 4);
    work_by(&p, 240);
    for (size_t i = 0; i < PLANNED && planned_sizes[i] <= most; i++) {
        for (size_t j = 0; j < sizeof crowds / sizeof *crowds; j++) {
            p = luossavin_plan_make(planned_sizes[i], crowds[j]).plan;
            work_by(&p, planned_sizes[i]);
        }
    }
}

/* The longest text, once. */
static void longest(void)
{
    struct luossavin_plan p = luossavin_plan_make(LIMIT, 63).plan;
    struct stretch s = in_order(0, LIMIT);
    s.plan = &p;
    try(s, 0);
    s.data = LIMIT + 1;
    try(s, 0);
}

/* Refusals. */

/* Every record and IV, and everything else that may be wrong, together: by a range, by a plan that is accepted and by others. */
static void on_record(struct holder fields)
{
    static const size_t offsets[] = {0, 21, LIMIT - 33, LIMIT - 32, LIMIT + 1, SIZE_MAX};
    struct luossavin_plan made = luossavin_plan_make(33, 2).plan, plans[3] = {made, made, following(NULL, 0)};
    struct stretch s;
    plans[1].lengths[0]++;
    for (int i = 0; i < IVS * 9 * 4; i++) {
        int way = i % 4, j = i / 4 % 9;
        s = in_order(j < 6 ? offsets[j] : 0, 33);
        s.key = fields;
        s.iv = iv_lengths[i / 36];
        s.plan = j < 6 ? NULL : &plans[j - 6];
        s.decrypt = way % 2;
        s.room -= way / 2;
        try(s, 0);
    }
    /* a length that is over the limit comes before a plan that is not accepted, which comes before the room */
    s = in_order(0, LIMIT + 1);
    s.key = fields;
    s.plan = &plans[1];
    s.room = 0;
    try(s, 0);
}

/* Numbers that are written down: what comes first in a range, and in work by a plan, which is accepted or not. */
static void order(void)
{
    enum { NO_PLAN, ACCEPTED, NOT_ACCEPTED };
    static const struct { uint32_t number; int plan; struct holder key; int decrypt; size_t iv, offset, data, room; } rows[] = {
        {1, NO_PLAN, {1, 0, 0}, 0, 12, SIZE_MAX, 32, 0}, {13, NO_PLAN, {13, 0, 0}, 1, 12, SIZE_MAX, 32, 0},
        {10, NO_PLAN, {0, NUMBER, 1}, 0, 12, SIZE_MAX, 32, 0}, {14, NO_PLAN, {0, NUMBER, 1}, 0, 16, SIZE_MAX, 32, 0},
        {5, NO_PLAN, {0, NUMBER, 1}, 1, 16, SIZE_MAX, 32, 0}, {5, NO_PLAN, {0, NUMBER, 0}, 0, 16, SIZE_MAX, 0, 0},
        {6, NO_PLAN, {0, NUMBER, 0}, 0, 16, 7, 32, 31}, {1, NOT_ACCEPTED, {1, 0, 0}, 0, 12, 0, 32, 0},
        {13, NOT_ACCEPTED, {13, 0, 0}, 1, 12, 0, 32, 0}, {10, NOT_ACCEPTED, {0, NUMBER, 1}, 0, 12, 0, 32, 0},
        {14, NOT_ACCEPTED, {0, NUMBER, 1}, 0, 16, 0, 32, 0}, {5, NOT_ACCEPTED, {0, NUMBER, 0}, 1, 16, 0, LIMIT + 1, 0},
        {18, NOT_ACCEPTED, {0, NUMBER, 1}, 1, 16, 0, 32, 0}, {18, NOT_ACCEPTED, {0, NUMBER, 0}, 0, 16, 0, 32, ROOM},
        {6, ACCEPTED, {0, NUMBER, 0}, 0, 16, 0, 32, 31}, {0, NO_PLAN, {0, NUMBER, 0}, 0, 16, LIMIT, 0, 0}};
    const struct luossavin_plan plans[] = {{0}, luossavin_plan_make(32, 2).plan, luossavin_plan_make(33, 2).plan};
    for (size_t i = 0; i < sizeof rows / sizeof *rows; i++) {
        struct stretch s = {rows[i].key, rows[i].decrypt, rows[i].iv, rows[i].offset, rows[i].plan ? &plans[rows[i].plan] : NULL,
            rows[i].data, rows[i].room};
        check(answer_to_stretch(&s).number == rows[i].number, "a number that is written down", "among workers", i);
        try(s, 0);
    }
}

static void make_text(void)
{
    for (size_t i = 0; i < LIMIT; i++) {
        text[i] = (uint8_t)(37 * i + (i >> 8) + (i >> 16));
    }
}

void workers(void)
{
    uint8_t ones[16], near[16];
    memset(ones, 0xff, 16);
    iv_near_ctr_wrap(near, 5);
    make_text();
    planner();
    by_hand();
    hand_made();
    written();
    drawn();
    make_whole(ones, SHORT, 1);
    ranges();
    work(1025);
    make_whole(near, SHORT, 1);
    ranges();
    work(1025);
    make_whole(iv, LIMIT, 0);
    ranges();
    work(65536 + 5);
    edges();
    longest();
    order();
    every_record(on_record);
}

/* Of any size. */

/* Every offset and size about a block or two, into less room, just enough, and more. */
static void short_ranges(void)
{
    for (size_t offset = 0; offset <= 50; offset += is_sparse ? 5 : 1) {
        for (size_t n = 0; n <= 50; n += is_sparse && n > 17 ? 8 : 1) {
            for (size_t more = 0; more <= 2; more++) {
                struct stretch s = in_order(offset, n);
                s.room = n + more - (n != 0);
                s.key = holders[(offset + n) % 2];
                s.decrypt = 1;
                try(s, 0);
                s.decrypt = 0;
                try(s, 0);
            }
        }
    }
}

/* The planner's plans, in order and with an entry or the count another; for no workers and for one too many it has
 * none. */
static void plans(void)
{
    static const size_t sizes[] = {0, 1, 16, 17, 100, 1000, 1024};
    static const size_t by[] = {1, 16, (size_t)1 << 63, -(size_t)1, -(size_t)16};
    for (int i = 0; i < 7; i++) {
        for (size_t crew = 0; crew <= WORKERS + 1; crew += is_sparse ? 5 : 1) {
            struct luossavin_plan made = is_made(sizes[i], crew, crew == 0 || crew > WORKERS ? 17 : 0), plan = made;
            struct stretch s = in_order(0, sizes[i]);
            size_t place = crew % (made.count + 1) % WORKERS;
            s.plan = &plan;
            try(s, 0);
            for (int j = 0; j < 5 * 3; j++) {
                plan = made;
                *(j % 3 == 0 ? &plan.starts[place] : j % 3 == 1 ? &plan.lengths[place] : &plan.count) += by[j / 3];
                try(s, 0);
            }
        }
    }
}

/* Every count of pieces, of 16 bytes each, more than there may be among them. */
static void counts(void)
{
    struct luossavin_plan plan;
    for (size_t i = 0; i < WORKERS; i++) {
        plan.starts[i] = 16 * i;
        plan.lengths[i] = 16;
    }
    for (size_t count = 0; count <= WORKERS + 6; count++) {
        for (size_t n = 16 * count - (count != 0); n <= 16 * count + 1; n++) {
            struct stretch s = in_order(0, n);
            s.plan = &plan;
            plan.count = count;
            try(s, 0);
            plan.count = SIZE_MAX - count;
            try(s, 0);
        }
    }
}

/* Plans of which every entry is wild: pieces of one length and one way from start to start, whose sums come round. */
static void wild(void)
{
    static const size_t values[] = {0, 1, 16, (size_t)1 << 63, SIZE_MAX - 15, SIZE_MAX};
    static const size_t how_many[] = {0, 1, 2, WORKERS, WORKERS + 1, (size_t)1 << 32, SIZE_MAX};
    static const size_t sizes[] = {0, 16, 32, 16 * WORKERS};
    for (int i = 0; i < 6 * 6; i++) {
        struct luossavin_plan plan;
        for (size_t k = 0; k < WORKERS; k++) {
            plan.starts[k] = k * values[i / 6];
            plan.lengths[k] = values[i % 6];
        }
        for (int j = 0; j < 7 * 4; j++) {
            struct stretch s = in_order(0, sizes[j % 4]);
            s.plan = &plan;
            plan.count = how_many[j / 4];
            try(s, 0);
        }
    }
}

static void limits(void)
{
    struct stretch s = in_order(0, LIMIT);
    struct luossavin_plan plan = luossavin_plan_make(LIMIT, 64).plan;
    try(in_order(LIMIT - 17, 17), 0);
    try(in_order(LIMIT - 17, 18), 0);
    try(in_order(5, LIMIT - 5), 0);
    try(in_order(0, LIMIT + 1), 0);
    s.plan = &plan;
    try(s, 0);
    s.room--;
    try(s, 0);
    plan.lengths[63]++;
    try(s, 0);
    s.data++;
    try(s, 0);
}

void workers_of_any_size(void)
{
    uint8_t near[16];
    near_wrap(CTR, near);
    make_whole(near, with_limits ? LIMIT : SHORT, 1);
    short_ranges();
    plans();
    counts();
    wild();
    if (with_limits) {
        limits();
    }
}
