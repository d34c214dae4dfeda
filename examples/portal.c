/* A portal's question: which edition of a job may I show? The one that is current on the shelf, where its file opens under that edition.
 *
 *   cc portal.c -o portal $(pkg-config --cflags --libs luossavin) && ./portal SHELF JOB KEY IV
 *
 * SHELF is a file of `luossavin shelf`, JOB a number, KEY a file of 32 hex digits, and IV the hex digits that the current edition was sealed under.
 * It ends with 0, with the number of the refusal, with 64 where a word is wrong, or with 66 where a file cannot be read. No text is made.
 */
#include <luossavin.h>
#include <stdio.h>
#include <stdlib.h>
#include <string.h>

enum { WRONG_WORDS = 64, NO_FILE = 66 };
enum { EDITION = 6 }; /* where a shelf's record has it, big-endian */

static _Noreturn void stop(int status, const char *what, const char *word)
{
    fprintf(stderr, "portal: %s: %s\n", what, word);
    exit(status);
}

/* Reads a file, or as much of it as there is room for. */
static size_t read_file(const char *name, void *buffer, size_t room)
{
    FILE *file = fopen(name, "rb");
    size_t n;
    if (file == NULL) {
        stop(NO_FILE, "cannot be opened", name);
    }
    n = fread(buffer, 1, room, file);
    if (ferror(file)) {
        stop(NO_FILE, "cannot be read", name);
    }
    fclose(file);
    return n;
}

/* A job is 0 to 4294967295, in decimal digits and nothing else. */
static uint32_t read_job(const char *word)
{
    uint64_t job = 0;
    if (*word == '\0' || strlen(word) > 10 || strspn(word, "0123456789") != strlen(word)) {
        stop(WRONG_WORDS, "no job", word);
    }
    for (const char *digit = word; *digit != '\0'; digit++) {
        job = 10 * job + (uint64_t)(*digit - '0');
    }
    if (job > UINT32_MAX) {
        stop(WRONG_WORDS, "no job", word);
    }
    return (uint32_t)job;
}

/* Hex digits, all of them: how many bytes they are. A length that the library does not take is for the library to refuse. */
static size_t read_hex(const char *what, const char *digits, uint8_t *bytes, size_t room)
{
    size_t n = strlen(digits);
    if (strspn(digits, "0123456789abcdefABCDEF") != n || n % 2 != 0 || n / 2 > room) {
        stop(WRONG_WORDS, what, "expected hex digits, two for each byte");
    }
    for (size_t i = 0; i < n / 2; i++) {
        unsigned byte;
        sscanf(digits + 2 * i, "%2x", &byte);
        bytes[i] = (uint8_t)byte;
    }
    return n / 2;
}

/* A key's record, of a file with 32 hex digits and the end of a line. */
static struct luossavin_key read_key(const char *name)
{
    char digits[4 * LUOSSAVIN_KEY_SIZE] = "";
    uint8_t bytes[sizeof digits / 2];
    struct luossavin_key key;
    read_file(name, digits, sizeof digits - 1);
    digits[strcspn(digits, "\r\n")] = '\0';
    key = luossavin_key_new(bytes, read_hex(name, digits, bytes, sizeof bytes), 1);
    luossavin_wipe(digits, sizeof digits);
    luossavin_wipe(bytes, sizeof bytes);
    return key;
}

static int refuse(const char *job, uint32_t number)
{
    printf("job %s: nothing may be shown, refused with %u %s\n", job, number, luossavin_refusal_name(number));
    return (int)number;
}

static int ask(const char *shelf_name, const char *job, const char *key_name, const char *iv_digits)
{
    /* a byte more than a shelf may have: a longer file is refused */
    static uint8_t shelf[LUOSSAVIN_LARGEST_SHELF + 1];
    uint8_t iv[32];
    size_t used = read_file(shelf_name, shelf, sizeof shelf), iv_len = read_hex("the IV", iv_digits, iv, sizeof iv), sealed_len;
    uint32_t number = read_job(job);
    struct luossavin_shelved found = luossavin_shelf_find(shelf, used, used, number);
    const uint8_t *record = shelf + found.start;
    struct luossavin_key key;
    struct luossavin_answer a;
    uint16_t edition;
    if (found.number != LUOSSAVIN_DONE) {
        return refuse(job, found.number);
    }
    edition = (uint16_t)(record[EDITION] << 8 | record[EDITION + 1]);
    sealed_len = found.length - LUOSSAVIN_SHELF_HEAD;
    key = read_key(key_name);
    a = luossavin_edition_opens(key, number, edition, record + LUOSSAVIN_SHELF_HEAD, sealed_len, iv, iv_len);
    luossavin_wipe(&key, sizeof key);
    if (a.number != LUOSSAVIN_DONE) {
        return refuse(job, a.number);
    }
    printf("job %s: edition %u may be shown, %zu bytes\n", job, (unsigned)edition, sealed_len - LUOSSAVIN_TAG_SIZE);
    return 0;
}

int main(int argc, char **argv)
{
    int status;
    if (argc != 5) {
        stop(WRONG_WORDS, "expected", "SHELF JOB KEY IV");
    }
    status = ask(argv[1], argv[2], argv[3], argv[4]);
    luossavin_wipe_stack();
    return status;
}
