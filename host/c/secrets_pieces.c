/* Messages in pieces, ranges, and work by a plan, under secrets. */
#include "secrets.h"

#include <string.h>

/* Three pieces: five bytes, so that the second begins inside a block, n bytes, and twenty. An opening's tag is behind the data;
 * a tag that is another is refused. */
static void message(enum kind kind, size_t iv_len, size_t n, uint8_t *data, uint32_t due)
{
    const size_t cuts[] = {0, 5, 5 + n, 25 + n};
    const struct given g = {.key = key, .iv = iv, .label = label, .iv_len = iv_len, .label_len = sizeof label};
    uint8_t *to = kind == OPENING ? data : out;
    struct state s;
    struct luossavin_answer a;
    watch(ROUNDS, "%s in pieces, an IV of %zu, its start", kind_names[kind], iv_len);
    a = call_start(kind, &s, &g);
    is_answered(&a, 0);
    for (size_t i = 0; i < 3; i++) {
        size_t length = cuts[i + 1] - cuts[i];
        /* the pad of a begun block is at hand */
        watch(kind == OPENING ? NEITHER : length < 16 ? PERHAPS_ROUNDS : ROUNDS, "%s in pieces, one of %zu bytes at %zu", kind_names[kind],
            length, cuts[i]);
        a = call_piece(&s, data + cuts[i], length, out + cuts[i], length);
        is_answered(&a, 0);
    }
    watch(kind == OPENING ? ANSWERS : NEITHER, "%s in pieces, %zu bytes, its end, which answers %u", kind_names[kind], cuts[3], due);
    a = call_end(&s, to + cuts[3], 16);
    is_answered(&a, due);
}

/* A sealed message is opened, and once more with a bit of its tag changed. */
static void sealed_and_opened(size_t iv_len, size_t n)
{
    message(SEALING, iv_len, n, text, 0);
    memcpy(back, out, n + 41);
    message(OPENING, iv_len, n, back, 0);
    back[n + 25 + 7 * which_secrets % 16] ^= 1;
    message(OPENING, iv_len, n, back, 4);
}

void in_pieces(void)
{
    for (size_t i = 0; i < lengths_count && lengths[i] + 25 <= MOST; i++) {
        message(COUNTING, 16, lengths[i], text, 0);
        sealed_and_opened(16, lengths[i]);
    }
    sealed_and_opened(12, 100);
}

/* A range that begins inside a block, and one far behind the start, both ways; and a plan. */
void in_ranges(void)
{
    for (size_t i = 0; i < lengths_count; i++) {
        size_t n = lengths[i];
        struct luossavin_plan plan = luossavin_plan_make(n, 5).plan;
        struct luossavin_answer a;
        watch(n > 0 ? ROUNDS : PERHAPS_ROUNDS, "a range of %zu bytes, from 3", n);
        a = luossavin_ctr_range(key, false, iv, 16, 3, text, n, out, n);
        is_answered(&a, 0);
        watch(n > 0 ? ROUNDS : PERHAPS_ROUNDS, "a range of %zu bytes, from 1000000", n);
        a = luossavin_ctr_range(key, true, iv, 16, 1000000, text, n, out, n);
        is_answered(&a, 0);
        watch(n > 0 ? ROUNDS : PERHAPS_ROUNDS, "work by a plan, %zu bytes", n);
        a = luossavin_ctr_by_plan(key, false, iv, 16, plan, text, n, out, n);
        is_answered(&a, 0);
    }
}
