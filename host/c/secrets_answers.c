/* What is answered with yes or no, or with a place, under secrets: tags and paddings that are wrong, and the questions which
 * label a file opens under, and whether it does under an edition. Where they are wrong goes by the secrets; that they are, and what is answered, does not. */
#include "secrets.h"

#include "prepared.h"

#include <stdio.h>
#include <stdlib.h>
#include <string.h>

/* A bit of the tag is another, or one of the text. */
static void wrong_tag(size_t n)
{
    struct luossavin_answer a = luossavin_encrypt(GCM, key, label, sizeof label, text, n, iv, 16, out, sizeof out);
    size_t at = which_secrets % 2 && n > 0 ? 7 * which_secrets % n : n + 7 * which_secrets % 16;
    out[at] ^= (uint8_t)(1u << which_secrets % 8);
    watch(ROUNDS | ANSWERS, "Gcm, %zu bytes, with a bit changed", n);
    a = luossavin_decrypt(GCM, key, label, sizeof label, out, n + 16, iv, 16, back, sizeof back);
    is_answered(&a, 4);
}

/* The last block decrypts to `last`. */
static void wrong_padding(size_t n, const uint8_t last[16], uint32_t due)
{
    struct luossavin_answer a;
    memcpy(back, text, n);
    memcpy(back + n, last, 16);
    make_secret(back, n + 16);
    seal_blocks(key, iv, back, n + 16, out);
    watch(ROUNDS | ANSWERS, "Cbc, %zu bytes, which answers %u", n + 16, due);
    a = luossavin_decrypt(CBC, key, NULL, 0, out, n + 16, iv, 16, back, sizeof back);
    is_answered(&a, due);
}

static void wrong_paddings(size_t n)
{
    static const uint8_t no_counts[] = {0, 17, 200, 255};
    uint8_t last[16], count = (uint8_t)(3 + which_secrets % 14);
    memset(last, 0, sizeof last);
    last[15] = no_counts[which_secrets % 4];
    wrong_padding(n, last, 3);
    pad(last, count);
    last[15 - 1 - which_secrets % (count - 1u)] ^= 0x40;
    wrong_padding(n, last, 15);
}

/* A file that was sealed under the third of four labels, which all have their own length, or under none of them. */
static void which_label(size_t iv_len, size_t n, uint32_t opens)
{
    static const size_t sizes[4] = {3, 0, 20, 14};
    struct luossavin_found f;
    prepared(luossavin_encrypt(GCM, key, label + 3, opens ? 20 : 21, text, n, iv, iv_len, out, sizeof out));
    watch(ROUNDS | ANSWERS, "which label, %zu bytes, an IV of %zu, %s", n, iv_len, opens ? "the third" : "none");
    f = luossavin_which(key, out, n + 16, iv, iv_len, label, sizeof label, sizes, 4);
    is_answered(&f.answer, 0);
    make_known(&f, sizeof f);
    if (f.found != opens || f.place != 2 * opens) {
        fprintf(stderr, "secrets: which label answers %u, %u\n", f.found, f.place);
        exit(2);
    }
}

/* A file that was sealed as edition 2 of a job, and is asked about as that and as edition 3. */
static void edition(size_t iv_len, size_t n)
{
    struct luossavin_answer a = luossavin_edition_seal(key, 7, 2, text, n, iv, iv_len, out, sizeof out);
    is_answered(&a, 0);
    for (uint16_t edition = 2; edition <= 3; edition++) {
        watch(ROUNDS | ANSWERS, "whether edition %u opens, %zu bytes, an IV of %zu", edition, n, iv_len);
        a = luossavin_edition_opens(key, 7, edition, out, n + 16, iv, iv_len);
        is_answered(&a, edition == 2 ? 0 : 4);
    }
}

void answers(void)
{
    for (size_t i = 0; i < lengths_count; i++) {
        wrong_tag(lengths[i]);
        which_label(16, lengths[i], 1);
        which_label(16, lengths[i], 0);
        edition(16, lengths[i]);
        wrong_paddings(lengths[i] / 16 * 16 + 16 <= MOST - 16 ? lengths[i] / 16 * 16 : MOST - 32);
    }
    which_label(12, 100, 1);
}
