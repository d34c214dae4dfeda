/* Seals a page as the rough of a job, and asks of the sealed page: does it open as the rough? And as the final?
 *
 *   cc seal.c -o seal $(pkg-config --cflags --libs luossavin) && ./seal
 */
#include <luossavin.h>
#include <stdio.h>
#include <sys/random.h>

enum { JOB = 4711, ROUGH = 1, FINAL = 2 };

static const uint8_t page[] = "Q. Would you state your name for the record?\nA. Of course.\n";
enum { PAGE = sizeof page - 1, SEALED = PAGE + LUOSSAVIN_TAG_SIZE };

/* What is neither yes nor no is an error. */
static int say(uint16_t edition, struct luossavin_answer a)
{
    if (a.number != LUOSSAVIN_DONE && a.number != LUOSSAVIN_INVALID_TAG) {
        fprintf(stderr, "refused: %u %s\n", a.number, luossavin_refusal_name(a.number));
        return 1;
    }
    printf("opens as edition %d: %s\n", edition, a.number == LUOSSAVIN_DONE ? "yes" : "no");
    return 0;
}

static int seal_and_ask(const struct luossavin_key *key, const uint8_t iv[LUOSSAVIN_IV_SIZE])
{
    uint8_t sealed[SEALED];
    struct luossavin_answer a = luossavin_edition_seal(*key, JOB, ROUGH, page, PAGE, iv, LUOSSAVIN_IV_SIZE, sealed, SEALED);
    if (a.number != LUOSSAVIN_DONE) {
        fprintf(stderr, "refused: %u %s\n", a.number, luossavin_refusal_name(a.number));
        return 1;
    }
    printf("sealed as edition %d of job %d: %d bytes are %zu\n", ROUGH, JOB, PAGE, a.length);
    return say(ROUGH, luossavin_edition_opens(*key, JOB, ROUGH, sealed, SEALED, iv, LUOSSAVIN_IV_SIZE))
        || say(FINAL, luossavin_edition_opens(*key, JOB, FINAL, sealed, SEALED, iv, LUOSSAVIN_IV_SIZE));
}

int main(void)
{
    /* A key is made once and kept; an IV is made anew for each page, and kept beside it. */
    uint8_t bytes[LUOSSAVIN_KEY_SIZE], iv[LUOSSAVIN_IV_SIZE];
    struct luossavin_key key;
    int failed;
    if (getrandom(bytes, sizeof bytes, 0) != sizeof bytes || getrandom(iv, sizeof iv, 0) != sizeof iv) {
        perror("getrandom");
        return 1;
    }
    key = luossavin_key_new(bytes, sizeof bytes, 1);
    failed = seal_and_ask(&key, iv);
    luossavin_wipe(&key, sizeof key);
    luossavin_wipe(bytes, sizeof bytes);
    luossavin_wipe_stack();
    return failed;
}
