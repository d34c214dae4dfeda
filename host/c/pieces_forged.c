/* States that a host made up: any field holds anything. The header's order (rules.c) still says which number comes,
 * each answer has the key's number that stands there, an end says whether a counter came round by what the state says
 * that it was counted from, a refusal leaves the state as it was, a piece counts its bytes, the outcome is the same
 * when the call is made again, and buffers are fenced on either side.
 */
#include "pieces.h"

#include "buffers.h"
#include "calls.h"
#include "random.h"
#include "wrap.h"

#include <signal.h>
#include <stdio.h>
#include <string.h>
#include <unistd.h>

enum { MOST = 48 };

static unsigned long calls_for[NUMBERS], came_round;

/* What runs: a call, and the state that it is on, which holds the same. */
static struct part now;
static struct state given;

static void describe_forged(void)
{
    printf("  %s, %s, total %zu, label %zu, stands %u, key %u, data %zu, room %zu\n", kind_names[now.kind],
        now.step == END ? "end" : "piece", now.total, now.label_before, now.stands, now.number, now.data, now.room);
}

static void on_fault(int signal)
{
    /* the program is lost, so what printf needs is not missed */
    is_wrong(signal == SIGSEGV ? "it touches memory that it was not lent" : "it faults");
    fflush(stdout);
    _exit(1);
}

/* A length as it may stand in a state: small, about the limit, or anything. */
static size_t any_length(void)
{
    switch (below(6)) {
    case 0:
        return draw();
    case 1:
        return SIZE_MAX - below(MOST);
    case 2:
        return LIMIT - MOST + below(2 * MOST);
    case 3:
        return LIMIT;
    default:
        return below(100);
    }
}

static uint32_t any_standing(void)
{
    static const uint32_t known[] = {1, 5, 10, 12, 13, 14};
    switch (below(8)) {
    case 0:
        return known[below(6)];
    case 1:
        return (uint32_t)below(20);
    case 2:
        return (uint32_t)draw();
    default:
        return 0;
    }
}

/* What counters may be counted from: anything, or near the place where they come round for such a total. */
static void any_from(uint8_t from[16], size_t total)
{
    draw_bytes(from, 16);
    if (below(4) != 0) {
        iv_near_ctr_wrap(from, (uint32_t)(total / 16 + 3 - below(6)));
    }
}

/* A state of any bytes, with some fields that are nearer to what the library gives, and a call on it. */
static void any_call(void)
{
    given.kind = (enum kind)below(KINDS);
    draw_bytes((uint8_t *)&given.is, sizeof given.is);
    now = (struct part){.kind = given.kind, .number = *number_of(&given)};
    *total_of(&given) = now.total = any_length();
    *stands_of(&given) = now.stands = any_standing();
    if (label_of(&given) != NULL) {
        *label_of(&given) = now.label_before = any_length();
    }
    any_from(now.from, now.total);
    put_from(&given, now.from);
    now.step = below(3) == 0 ? END : PIECE;
    now.data = now.step == END ? 0 : below(MOST);
    now.room = now.step == PIECE && now.kind == OPENING ? 0 : below(2) ? 16 : below(MOST);
}

/* Whether the answer and the state after it are in order. Whether such fields open is theirs to decide: either is
 * right, 0 or 4. */
static int in_order(struct luossavin_answer a, struct state *after)
{
    struct luossavin_answer due;
    now.wrong_tag = a.number == 4;
    due = answer_to_part(&now);
    if (difference(a, due) != NULL) {
        return is_wrong("the answer on a forged state");
    }
    calls_for[due.number]++;
    came_round += due.came_round;
    return state_is_due(&now, due, &given, after) || is_wrong("the state after a forged one");
}

static struct luossavin_answer call(struct state *s, const uint8_t *data, uint8_t *bytes)
{
    calls++;
    return now.step == END ? call_end(s, bytes, now.room) : call_piece(s, data, now.data, bytes, now.room);
}

/* One call, made twice: into fenced memory and into a buffer that held other bytes. */
static void one_forged(void)
{
    struct buffer data = lend(now.data, 0), bytes = lend(now.room, LENT);
    struct state after = given, again = given;
    struct luossavin_answer a, b;
    uint8_t other[MOST + 1] = {0};
    fill(data);
    shut(data);
    if (now.step == END && now.kind == OPENING) {
        memcpy(other, bytes.bytes, now.room);
        shut(bytes);
    }
    a = call(&after, lent(data), lent(bytes));
    b = call(&again, lent(data), other);
    if (in_order(a, &after)) {
        if (!untouched(bytes, a.length)) {
            is_wrong("a forged state writes past its length");
        } else if (difference(a, b) != NULL || !same_state(&after, &again)
            || memcmp(other, bytes.bytes, a.length) != 0) {
            is_wrong("a forged state answers otherwise when it is asked again");
        }
    }
    give_back(data);
    give_back(bytes);
}

void forged(size_t count)
{
    describe = describe_forged;
    signal(SIGSEGV, on_fault);
    signal(SIGBUS, on_fault);
    for (size_t i = 0; i < count; i++) {
        place = i % 2 ? FENCE_BEHIND : FENCE_BEFORE;
        any_call();
        one_forged();
    }
    printf("  by number:");
    for (int number = 0; number < NUMBERS; number++) {
        if (calls_for[number] != 0) {
            printf(" %d: %lu", number, calls_for[number]);
        }
    }
    printf("; %lu say that a counter came round, each made twice\n", came_round);
}
