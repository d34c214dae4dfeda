/* Messages in pieces, held to the single call and to libgcrypt.
 *
 *   pieces cuts SEED            messages of 0 to 100 bytes: cut at every place, at every pair of places up to 49
 *                               bytes, and behind every byte
 *   pieces random SEED COUNT    so many messages of up to 5,000 bytes, cut anywhere
 *   pieces long SEED COUNT      so many of up to 16,777,216 bytes, the first two of those at the limit
 *   pieces forged SEED COUNT    so many calls on states that a host made up
 *
 * A message is a text under a key, a label and an IV of 12 or 16 bytes. The single call and libgcrypt must agree
 * on Ctr (under 16 bytes) and on sealing; and on opening, either of what was sealed or of that with a bit of tag,
 * label or ciphertext changed. Then each way of cutting it must give the same, with refused calls in between. The
 * key has any number, which every answer must repeat; half of Ctr's decryptions and of the openings are under it
 * once it is retired, and what would encrypt under it then must be refused at the start. Half of the IVs of 16 bytes
 * lead to where the counter comes round, or almost: the single call and the end must say whether it did. The single calls are
 * on the plain engine, and each piece is on the next of the four.
 * Prints what is wrong and how much was done; exit status 1 if anything is wrong.
 */
#include "pieces.h"

#include "calls.h"
#include "peers.h"
#include "random.h"
#include "variant.h"
#include "wrap.h"

#include <stdio.h>
#include <stdlib.h>
#include <string.h>

enum { LENT = 0xa5, SLACK = 40, LABELS = 64, CUTS = 4096 };

/* What is changed between sealing and opening. */
enum spoil { NOTHING, THE_TAG, THE_LABEL, THE_TEXT, SPOILS };

unsigned long calls, wrong;
void (*describe)(void);
static unsigned long messages, came_round, ends_round, verdicts[2], runs, retired_runs;

/* The message that runs: what is given, the key's record as it is and retired; its text, and what the single call
 * makes of it in Ctr and in sealing; what is received in its place for opening, under which label, and whether that
 * opens (0 or 4). Of Ctr and then of Gcm, whether a counter comes round, as the rules say. */
static struct {
    uint64_t seed;
    enum spoil spoil;
    uint8_t bytes[16], iv[16], label[LABELS], other_label[LABELS];
    struct luossavin_key key, old;
    size_t iv_len, label_len, other_len, length;
    uint32_t verdict;
    uint16_t number;
    uint8_t round[2];
} m;
static uint8_t text[LIMIT], counted[LIMIT], sealed[LIMIT + 16], received[LIMIT + 16], out[LIMIT + 16 + SLACK];
static const uint8_t too_long[LIMIT + 1];

/* Where it is cut, and what runs. */
static size_t cuts[CUTS], cut_count;
static enum kind now;

static void describe_message(void)
{
    static const char *const spoils[SPOILS] = {"nothing", "tag", "label", "text"};
    printf("  %s, %zu bytes from %#llx, key %u, iv %zu, label %zu, changed: %s, %zu cuts:", kind_names[now], m.length,
        (unsigned long long)m.seed, m.number, m.iv_len, m.label_len, spoils[m.spoil], cut_count);
    for (size_t i = 0; i < cut_count && i < 12; i++) {
        printf(" %zu", cuts[i]);
    }
    puts(cut_count > 12 ? " .." : "");
}

int is_wrong(const char *what)
{
    wrong++;
    if (wrong <= 20) {
        printf("wrong: %s\n", what);
        describe();
    }
    return 0;
}

/* An answer that says that no counter came round, and one that says what it is to say. */

static int is(struct luossavin_answer a, uint32_t number, size_t missing, size_t length)
{
    calls++;
    return a.number == number && a.missing == missing && a.came_round == 0 && a.key == m.number && a.length == length;
}

static int is_round(struct luossavin_answer a, uint32_t number, size_t length, uint8_t round)
{
    int as_due = a.came_round == round;
    a.came_round = 0;
    return is(a, number, 0, length) && as_due;
}

/* Whether the output buffer is as it was lent from `from` up to SLACK bytes behind `to`. */
static int clean(size_t from, size_t to)
{
    for (size_t i = from; i < to + SLACK; i++) {
        if (out[i] != LENT) {
            return 0;
        }
    }
    return 1;
}

/* Making a message. */

/* Changes what is received, or the label that it is opened under, in one bit; an empty label gets a byte. */
static void change(void)
{
    size_t bit = draw() % 8;
    if (m.spoil == THE_TAG || (m.spoil == THE_TEXT && m.length == 0)) {
        received[m.length + below(16)] ^= 1 << bit;
    } else if (m.spoil == THE_TEXT) {
        received[below(m.length)] ^= 1 << bit;
    } else if (m.spoil == THE_LABEL && m.label_len == 0) {
        m.other_len = 1;
    } else if (m.spoil == THE_LABEL) {
        m.other_label[below(m.label_len)] ^= 1 << bit;
    }
}

/* Whether a counter comes round in the text, as the rules have it. */
static uint8_t rounds_in(uint32_t mode)
{
    struct whole w = {.mode = mode, .key = set_up(16, m.number), .iv = m.iv_len, .data = m.length, .room = SIZE_MAX};
    count_from(mode, m.key, m.iv, m.iv_len, w.from);
    return answer_to(&w).came_round;
}

/* Half of those of 16 bytes lead to where a counter comes round, Ctr's or Gcm's: within the text, or just where it
 * ends. */
static void choose_iv(void)
{
    uint32_t blocks = (uint32_t)((m.length + 15) / 16), before;
    draw_bytes(m.iv, 16);
    if (m.iv_len == 16 && below(2) == 0) {
        before = (uint32_t)(blocks < 2 || below(2) ? below(blocks + 2) : blocks - 2 + below(4));
        if (below(2) == 0) {
            iv_near_ctr_wrap(m.iv, before);
        } else {
            iv_near_gcm_wrap(m.key, m.iv, before);
        }
    }
    m.round[0] = rounds_in(CTR);
    m.round[1] = rounds_in(GCM);
    came_round += m.round[0] || m.round[1];
}

/* What libgcrypt makes of `data`, in `out`, against the library's `ours`. */
static void hold_peer(int mode, struct field data, const uint8_t *ours, size_t length)
{
    const struct field iv = {m.iv, m.iv_len}, label = {m.label, m.label_len};
    if (peers[0].run(mode, ENCRYPT, m.bytes, iv, label, data, out) != DONE || memcmp(out, ours, length) != 0) {
        is_wrong("libgcrypt and the single call differ");
    }
}

/* The single call's Ctr and sealing. */
static void ask_encryption(void)
{
    const struct field data = {text, m.length};
    struct luossavin_answer a;
    if (m.iv_len == 16) {
        now = COUNTING;
        a = luossavin_encrypt(CTR, m.key, NULL, 0, text, m.length, m.iv, 16, counted, m.length);
        if (!is_round(a, 0, m.length, m.round[0])) {
            is_wrong("the single call's answer");
        }
        hold_peer(CTR, data, counted, m.length);
    }
    now = SEALING;
    a = luossavin_encrypt(GCM, m.key, m.label, m.label_len, text, m.length, m.iv, m.iv_len, sealed, m.length + 16);
    if (!is_round(a, 0, m.length + 16, m.round[1])) {
        is_wrong("the single call's answer");
    }
    hold_peer(GCM, data, sealed, m.length + 16);
}

/* Whether the single call opens what is received: it does where nothing was changed, and libgcrypt says so too. */
static void ask_opening(void)
{
    const struct field iv = {m.iv, m.iv_len}, label = {m.other_label, m.other_len}, data = {received, m.length + 16};
    enum verdict wanted = m.spoil == NOTHING ? DONE : BAD_TAG;
    struct luossavin_answer a;
    now = OPENING;
    m.verdict = wanted == DONE ? 0 : 4;
    a = luossavin_decrypt(GCM, m.old, m.other_label, m.other_len, received, m.length + 16, m.iv, m.iv_len, out,
        m.length);
    if (!is_round(a, m.verdict, wanted == DONE ? m.length : 0, wanted == DONE && m.round[1])
        || peers[0].run(GCM, DECRYPT, m.bytes, iv, label, data, out) != wanted) {
        is_wrong("whether the single call opens it, or libgcrypt");
    }
    verdicts[wanted]++;
}

static void make(size_t length, size_t iv_len, enum spoil spoil)
{
    memset(&m, 0, sizeof m);
    messages++;
    m.seed = seed;
    m.spoil = spoil;
    m.length = length;
    m.iv_len = iv_len;
    m.label_len = m.other_len = below(LABELS);
    draw_bytes(m.bytes, 16);
    m.number = (uint16_t)(1 + below(65535));
    m.key = luossavin_key_engine(luossavin_key_new(m.bytes, 16, m.number), PLAIN);
    m.old = luossavin_key_retire(m.key);
    draw_bytes(m.label, m.label_len);
    memcpy(m.other_label, m.label, LABELS);
    draw_bytes(text, length);
    cut_count = 0;
    choose_iv();
    ask_encryption();
    memcpy(received, sealed, length + 16);
    change();
    ask_opening();
    memset(out, LENT, length + 16 + SLACK);
}

/* Holding it in pieces. */

/* Starts a message under the key, or, where it is retired, under the record that says so, on each engine in turn. */
static struct luossavin_answer begin(struct state *s, bool decrypt, int is_retired)
{
    struct given given = {is_retired ? m.old : m.key, decrypt, m.iv, m.label, m.iv_len, m.label_len};
    given.key = luossavin_key_engine(given.key, runs % ENGINES);
    if (now == OPENING) {
        given.label = m.other_label;
        given.label_len = m.other_len;
    }
    return call_start(now, s, &given);
}

/* A start, half of those that decrypt under the retired key. */
static int hold_start(struct state *s)
{
    bool decrypt = now == COUNTING && below(2);
    int is_retired = (decrypt || now == OPENING) && below(2);
    retired_runs += (unsigned long)is_retired;
    if (!is(begin(s, decrypt, is_retired), 0, 0, 0)) {
        return is_wrong("the answer of a start");
    }
    return 1;
}

/* One that encrypts, which a retired key may not: nothing is left but the refusal and the key's number. */
static int hold_retired(void)
{
    struct state s;
    if (now == OPENING) {
        return 1;
    }
    return (is(begin(&s, false, 1), 14, 0, 0) && holds_only(&s, 14, m.number))
        || is_wrong("a start under a retired key");
}

/* A call that must be refused, with the state and the buffer that it had as they were. */
static int refused(struct luossavin_answer a, uint32_t number, size_t missing, const struct state *before,
    const struct state *after, size_t lent)
{
    return (is(a, number, missing, 0) && same_state(before, after) && clean(0, lent))
        || is_wrong(number == 12 ? "a call after the end" : "a refusal, its state or its output");
}

/* Pieces that are refused where `n` more bytes are due: with room for one byte less, and with one byte more
 * than the limit leaves, which has no room either. */
static int hold_refusals(const struct state *s, const uint8_t *data, size_t n)
{
    struct state after = *s;
    size_t over = LIMIT + 1 - *total_of(&after);
    if (now != OPENING && n > 0 && !refused(call_piece(&after, data, n, out, n - 1), 6, 0, s, &after, n)) {
        return 0;
    }
    return refused(call_piece(&after, too_long, over, out, 0), 5, 0, s, &after, n);
}

static int hold_piece(struct state *s, size_t from, size_t to)
{
    const uint8_t *data = now == OPENING ? received : text, *wanted = now == COUNTING ? counted : sealed;
    size_t n = to - from, written = now == OPENING ? 0 : n;
    struct luossavin_answer a;
    if (!hold_refusals(s, data + from, n)) {
        return 0;
    }
    a = call_piece(s, n ? data + from : NULL, n, out, written + (draw() & 1 ? SLACK / 2 : 0));
    if (!is(a, 0, 0, written)) {
        return is_wrong("the answer of a piece");
    }
    if (memcmp(out, wanted + from, written) != 0) {
        return is_wrong("what a piece wrote");
    }
    if (!clean(written, written)) {
        return is_wrong("a piece writes past its length");
    }
    memset(out, LENT, written);
    return 1;
}

/* Ends that are refused, and may be tried again. */
static int hold_refused_ends(const struct state *s)
{
    struct state after = *s;
    if (now == SEALING) {
        return refused(call_end(&after, out, below(16)), 6, 0, s, &after, 16);
    }
    if (now == OPENING) {
        size_t shorter = below(16), longer = 17 + below(40);
        return refused(call_end(&after, received + m.length, shorter), 9, 16 - shorter, s, &after, 0)
            && refused(call_end(&after, (uint8_t *)too_long, longer), 9, 0, s, &after, 0);
    }
    return 1;
}

static int hold_end(struct state *s)
{
    uint32_t number = now == OPENING ? m.verdict : 0;
    uint8_t round = number == 0 ? m.round[now != COUNTING] : 0;
    struct luossavin_answer a;
    if (!hold_refused_ends(s)) {
        return 0;
    }
    a = now == OPENING ? call_end(s, received + m.length, 16) : call_end(s, out, 16 + below(SLACK));
    if (!is_round(a, number, now == SEALING ? 16 : 0, round)) {
        return is_wrong("the answer of an end");
    }
    ends_round += round;
    if (now == SEALING && memcmp(out, sealed + m.length, 16) != 0) {
        return is_wrong("the tag");
    }
    if (!clean(a.length, 16) || !holds_only(s, 12, m.number)) {
        return is_wrong("an end writes past its length, or leaves something in the state");
    }
    memset(out, LENT, 16);
    return 1;
}

/* Nothing comes after the end. */
static int hold_ended(const struct state *s)
{
    struct state after = *s;
    return refused(call_piece(&after, NULL, 0, out, SLACK), 12, 0, s, &after, 0)
        && refused(call_piece(&after, too_long, sizeof too_long, out, 0), 12, 0, s, &after, 0)
        && refused(call_end(&after, now == OPENING ? received + m.length : out, 16), 12, 0, s, &after, 0)
        && refused(call_end(&after, NULL, 0), 12, 0, s, &after, 0);
}

/* Turns a state to an engine. */
static void turn(struct state *s, size_t engine)
{
    if (engine_of(s) != NULL) {
        *engine_of(s) = (uint8_t)(engine % ENGINES);
    }
}

/* One kind, cut as it is; then on from an older state, with all that was left in one piece. */
static void hold(enum kind kind)
{
    struct state s, older;
    size_t from = 0, older_from = 0, kept = below(cut_count + 1);
    now = kind;
    runs++;
    if (!hold_retired() || !hold_start(&s)) {
        return;
    }
    older = s;
    for (size_t i = 0; i <= cut_count; i++) {
        size_t to = i < cut_count ? cuts[i] : m.length;
        if (i == kept) {
            older = s;
            older_from = from;
        }
        turn(&s, runs + i);
        if (!hold_piece(&s, from, to)) {
            return;
        }
        from = to;
    }
    if (hold_end(&s) && hold_ended(&s) && hold_piece(&older, older_from, m.length)) {
        hold_end(&older);
    }
}

/* Every kind that a message is for: Ctr has no 12-byte IV, and what is changed is for opening alone. */
static void hold_all(void)
{
    if (m.spoil == NOTHING) {
        if (m.iv_len == 16) {
            hold(COUNTING);
        }
        hold(SEALING);
    }
    hold(OPENING);
}

/* Ways of cutting. */

static void cut_everywhere(void)
{
    size_t last = m.length <= 49 ? m.length : 0;
    cut_count = 0;
    hold_all();
    for (cuts[0] = 0; cuts[0] <= m.length; cuts[0]++) {
        cut_count = 1;
        hold_all();
        cut_count = 2;
        for (cuts[1] = cuts[0]; cuts[1] <= last; cuts[1]++) {
            hold_all();
        }
    }
    for (cut_count = 0; cut_count < m.length; cut_count++) {
        cuts[cut_count] = cut_count + 1;
    }
    hold_all();
}

/* Random pieces, of which many are short or empty, and an empty one at the end. */
static void draw_cuts(int bits)
{
    size_t place = 0;
    cut_count = 0;
    while (place <= m.length && cut_count < CUTS - 1) {
        cuts[cut_count++] = place;
        place += below((size_t)1 << below((size_t)bits + 1));
    }
    cuts[cut_count++] = m.length;
}

static void every_cut(void)
{
    for (size_t length = 0; length <= 100; length++) {
        for (size_t iv_len = 12; iv_len <= 16; iv_len += 4) {
            for (enum spoil spoil = NOTHING; spoil < SPOILS; spoil++) {
                make(length, iv_len, spoil);
                cut_everywhere();
            }
        }
    }
}

static void random_cuts(size_t count, size_t most, int bits)
{
    for (size_t i = 0; i < count; i++) {
        /* of the long ones, the first two have just as many bytes as may be, one under each length of IV */
        size_t length = most == LIMIT && i < 2 ? most : below(most + 1);
        make(length, i % 2 ? 12 : 16, i / 2 % 2 ? (enum spoil)below(SPOILS) : NOTHING);
        draw_cuts(bits);
        hold_all();
    }
}

int main(int argc, char **argv)
{
    size_t count = argc == 4 ? strtoul(argv[3], NULL, 10) : 0;
    const char *what = argc >= 3 ? argv[1] : "";
    start_peers();
    describe = describe_message;
    seed = argc >= 3 ? strtoull(argv[2], NULL, 10) : 0;
    if (strcmp(what, "cuts") == 0) {
        every_cut();
    } else if (strcmp(what, "random") == 0) {
        random_cuts(count, 5000, 12);
    } else if (strcmp(what, "long") == 0) {
        random_cuts(count, LIMIT, 22);
    } else if (strcmp(what, "forged") == 0) {
        forged(count);
    } else {
        fprintf(stderr, "usage: pieces cuts SEED, or pieces random|long|forged SEED COUNT\n");
        return 64;
    }
    if (messages != 0) {
        printf("  %lu messages, in %lu a counter comes round, %lu open and %lu do not; libgcrypt %s\n", messages,
            came_round, verdicts[DONE], verdicts[BAD_TAG], peers[0].version());
        printf("  cut %lu times, %lu of them under a retired key; %lu ends say that a counter came round\n", runs,
            retired_runs, ends_round);
    }
    printf("  %lu calls, %lu wrong, on %s\n", calls, wrong, variant_name());
    return wrong != 0;
}
