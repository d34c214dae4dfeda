/* Luossavin: SM4 (GB/T 32907-2016) in Cfb, Ofb, Ctr, Cbc and Gcm. It seals transcripts with SM4-GCM under their job and
 * edition. All buffers are the caller's. Link with -lluossavin (pkg-config luossavin), on x86-64 or aarch64 Linux.
 *
 * In a hurry: seal, ask, open.
 *
 *     struct luossavin_key key = luossavin_key_new(bytes, LUOSSAVIN_KEY_SIZE, 7);
 *     a = luossavin_edition_seal(key, job, edition, text, n, iv, LUOSSAVIN_IV_SIZE, sealed, n + LUOSSAVIN_TAG_SIZE);
 *     a = luossavin_edition_opens(key, job, edition, sealed, m, iv, LUOSSAVIN_IV_SIZE);
 *     a = luossavin_edition_open(key, job, edition, sealed, m, iv, LUOSSAVIN_IV_SIZE, text, m - LUOSSAVIN_TAG_SIZE);
 *     if (a.number != LUOSSAVIN_DONE)
 *         say(luossavin_refusal_name(a.number));
 *     luossavin_wipe(&key, sizeof key);
 *
 * You must do four things:
 *
 *   1. Use a new IV (nonce) for every message under a key. Two messages under one key and IV reveal each other's text,
 *      and let others forge.
 *   2. Check `number`. Anything but 0 is a refusal: nothing was written. Do not show or use the output.
 *   3. Pass pointers to as many bytes as the length beside them says. `out` must not overlap an input.
 *   4. Keep key records, states and H secret, like the key itself. Wipe them (luossavin_wipe), and the copies that calls
 *      leave on the stack (luossavin_wipe_stack).
 *
 * The reference follows: numbers and names, answers, keys, editions, messages, streaming, which edition, workers,
 * shelf, journal, halves, wiping.
 *
 * Every call returns. It allocates nothing, and reads and writes only the buffers that it was given. The library has no
 * state of its own, except which of its two variants it uses on x86-64. Any thread may make any call. The functions
 * from luossavin_key_new to luossavin_hash_join are proved. Those that end in _add and _finish, and those for names and
 * wiping at the end, are not proved: they are a few lines of C, and tested.
 */
#ifndef LUOSSAVIN_H
#define LUOSSAVIN_H

#include <stdbool.h>
#include <stddef.h>
#include <stdint.h>

#ifdef __cplusplus
extern "C" {
#endif

/* The compiler warns if the result is ignored. Ignoring it is a mistake: the key would not be retired, or key stream
 * would be used twice. */
#if defined(__GNUC__)
#define LUOSSAVIN_MUST_USE __attribute__((warn_unused_result))
#else
#define LUOSSAVIN_MUST_USE
#endif

/* ---- Numbers and names ----
 *
 * The version of this header. luossavin_version() returns the version of the library. */
/* numbers.txt: version */
#define LUOSSAVIN_VERSION "1.3.0"
/* numbers.txt: end */

/* The values of `number` in an answer. A later version may have more, up to 31: treat an unknown number as a refusal. */
/* numbers.txt: refusals of C */
enum luossavin_number {
    LUOSSAVIN_DONE = 0,                   /* the call is done */
    LUOSSAVIN_ERROR_BLOCK_SIZE = 1,       /* the key is not 16 bytes */
    LUOSSAVIN_ERROR_DATA_LEN = 2,         /* Cbc decryption: the length is not a multiple of 16 */
    LUOSSAVIN_INVALID_LAST_U8 = 3,        /* Cbc decryption: the last decrypted byte is 0 or above 16 */
    LUOSSAVIN_INVALID_TAG = 4,            /* Gcm decryption: the 16 bytes at the end are not the tag */
    LUOSSAVIN_TOO_LONG = 5,               /* a length is over its limit */
    LUOSSAVIN_NO_ROOM = 6,                /* the output buffer is shorter than the room needed */
    LUOSSAVIN_BAD_MODE = 7,               /* the mode is above 4 */
    LUOSSAVIN_EMPTY_CBC = 8,              /* Cbc decryption of 0 bytes */
    LUOSSAVIN_SHORT_GCM = 9,              /* Gcm decryption of fewer than 16 bytes; in streaming, a tag that is not 16 bytes */
    LUOSSAVIN_WRONG_IV = 10,              /* the IV is not 16 bytes; in Gcm, neither 12 nor 16 */
    LUOSSAVIN_WRONG_BLOCK = 11,           /* the single block is not 16 bytes */
    LUOSSAVIN_ENDED = 12,                 /* streaming: the message has already ended */
    LUOSSAVIN_WRONG_NUMBER = 13,          /* the key's number is not from 1 to 65,535 */
    LUOSSAVIN_RETIRED = 14,               /* encryption under a retired key */
    LUOSSAVIN_INVALID_PADDING = 15,       /* Cbc decryption: the last decrypted byte p is 1 to 16, but not all of the last p bytes are p */
    LUOSSAVIN_BAD_LIST = 16,              /* more than 64 candidate labels, or lengths that do not add up to the labels' buffer */
    LUOSSAVIN_BAD_WORKERS = 17,           /* a plan for 0 workers, or for more than 64 */
    LUOSSAVIN_NOT_ACCEPTED = 18,          /* the plan is not accepted for so many bytes */
    LUOSSAVIN_BAD_SHELF = 19,             /* the buffer has more than 65,536 bytes, or its used bytes are not a shelf */
    LUOSSAVIN_NOT_HIGHER = 20,            /* the shelf has that edition of the job already, or a higher one */
    LUOSSAVIN_NO_SHELF_ROOM = 21,         /* the records that would be current do not fit in the buffer */
    LUOSSAVIN_NO_CURRENT = 22,            /* the shelf has no current record of the job */
    LUOSSAVIN_BAD_RECORD = 23,            /* a recorded call is cut off or has no mark, or its direction is neither 0 nor 1 */
    LUOSSAVIN_PART_TOO_LONG = 24,         /* a recorded label, data or IV has more than 16,384 bytes, or an output more than 16,400 */
    LUOSSAVIN_UNKNOWN_KEY = 25,           /* a recorded call names a key that was not given */
    LUOSSAVIN_BAD_KEYS = 26,              /* a replay with more than eight keys, with a retired key, or with two keys of one number */
};
/* numbers.txt: end */

/* numbers.txt: modes of C */
enum luossavin_mode {
    LUOSSAVIN_CFB = 0,                    /* cipher feedback, in segments of 16 bytes */
    LUOSSAVIN_OFB = 1,                    /* output feedback */
    LUOSSAVIN_CTR = 2,                    /* a counter of 16 bytes, which starts at the IV */
    LUOSSAVIN_CBC = 3,                    /* cipher block chaining, with a padding of 1 to 16 bytes */
    LUOSSAVIN_GCM = 4,                    /* Galois/counter mode: the one that seals, with a label (AAD) and a tag */
};
/* numbers.txt: end */

/* How the rounds of SM4 are computed. No answer and no output byte depends on it. */
/* numbers.txt: engines of C */
enum luossavin_engine {
    LUOSSAVIN_ENGINE_CHOSEN = 0,          /* the library chooses: gates where blocks do not depend on one another, otherwise four tables */
    LUOSSAVIN_ENGINE_TABLES = 1,          /* four tables of 1 KiB, looked up by key and text (a cache side channel) */
    LUOSSAVIN_ENGINE_GATES = 2,           /* gates: bitsliced, with no look-up and no branch by key or text (constant-time) */
    LUOSSAVIN_ENGINE_PLAIN = 3,           /* one table of 1 KiB, looked up by key and text (a cache side channel) */
};
/* numbers.txt: end */

/* Sizes in bytes, and counts. */
/* numbers.txt: sizes of C */
enum luossavin_size {
    LUOSSAVIN_KEY_SIZE = 16,              /* a key, and a single block */
    LUOSSAVIN_IV_SIZE = 16,               /* an IV in every mode */
    LUOSSAVIN_SHORT_IV_SIZE = 12,         /* the short IV of Gcm, as in RFC 8998 */
    LUOSSAVIN_TAG_SIZE = 16,              /* the tag at the end of a sealed message */
    LUOSSAVIN_LABEL_SIZE = 6,             /* the label of a job and an edition */
    LUOSSAVIN_LONGEST_TEXT = 16777216,    /* the most bytes of a text, and in Gcm of a label */
    LUOSSAVIN_LONGEST_SEALED = 16777232,  /* the most bytes of a sealed message, and of a Cbc message to decrypt */
    LUOSSAVIN_MOST_LABELS = 64,           /* the most candidate labels of one question */
    LUOSSAVIN_MOST_WORKERS = 64,          /* the most workers of a plan */
    LUOSSAVIN_LARGEST_SHELF = 65536,      /* the most bytes of a shelf */
    LUOSSAVIN_SHELF_HEAD = 12,            /* the bytes of a record on a shelf before the sealed ones */
    LUOSSAVIN_NUMBERS = 32,               /* how many numbers a replay can count: more than there are now */
    LUOSSAVIN_MOST_KEYS = 8,              /* the most keys of a replay */
    LUOSSAVIN_LONGEST_PART = 16384,       /* the most bytes of a recorded label, data or IV */
    LUOSSAVIN_LONGEST_OUTPUT = 16400,     /* the most bytes of a recorded output */
};
/* numbers.txt: end */

/* ---- Answers ----
 *
 * Every call on a key returns these five fields. They, and every byte of the output, depend on the inputs of the call
 * alone:
 *
 *   number      0 when the call is done; otherwise the refusal: the first that applies, in the order below
 *   missing     in refusal 9: how many of 16 bytes are missing (0 for a tag of more than 16 bytes); otherwise 0
 *   came_round  1 if the counter of a Ctr or Gcm message wrapped from all ones to zero (see below); otherwise 0
 *   key         the key's number, also in a refusal; 0 where there is no key: in refusals 1, 7, 13 and 16, for a plan
 *               and for a record
 *   length      how many bytes of `out` are the result, from its front. The bytes after them are not changed. In a
 *               refusal, length is 0 and no byte of `out` is changed
 *
 *   call                        refusals, in the order in which they are checked
 *   luossavin_key_new           1, 13; calls on that record answer the same
 *   a single block              1, 13, 11, 14, 6
 *   a message                   7, 1, 13, 10, 14, 5, then in Cbc 8, 2 or in Gcm 9, then 6, then in Cbc 3, 15 or in Gcm 4
 *   streaming: start            1, 13, 10, 14, 5
 *   streaming: piece, end       what the start was refused with, then 12, 5, 9, 6, 4
 *   luossavin_edition_opens     1, 13, 10, 5, 9, 4. (Sealing and opening an edition: as a message)
 *   luossavin_which             16, 1, 13, 10, 5, 9
 *   making a plan               17, 5
 *   a range                     1, 13, 10, 14, 5, 6
 *   work by a plan              1, 13, 10, 14, 5, 18, 6
 *   shelf: put, collect, find   19, 20, 21; 19; 19, 22
 *   luossavin_record            24, 6
 *   luossavin_replay            26; then for each record 23, 24, 25
 *
 *   n bytes of data             room needed           length when done
 *   single block, either way    16                    16
 *   Cfb, Ofb, Ctr, either way   n                     n
 *   Cbc encryption              16 x (n / 16 + 1)     the same (n / 16 rounded down)
 *   Cbc decryption              n                     n less the padding
 *   Gcm encryption              n + 16                n + 16: the ciphertext, then the tag
 *   Gcm decryption              n - 16                n - 16
 *
 *   limits                      to encrypt            to decrypt            label (AAD)
 *   Cfb, Ofb, Ctr               16,777,216            16,777,216            ignored, any length
 *   Cbc                         16,777,216            16,777,232            ignored, any length
 *   Gcm                         16,777,216            16,777,232            16,777,216
 *
 *   the IV (nonce)
 *   Cfb, Ofb, Ctr, Cbc          16 bytes
 *   Gcm, 12 bytes               as SP 800-38D recommends and RFC 8998 uses: J0 is the IV and then 00000001
 *   Gcm, 16 bytes               J0 is the GHASH of the IV, as in SP 800-38D
 *
 * Store the IV with the message: the output does not contain it, and you need the same bytes to decrypt. The library
 * remembers no IV. Nothing is claimed about a 12-byte IV and the 16-byte IV that extends it with 00000001.
 *
 * `came_round`: Ctr counts blocks in all 16 bytes, from the IV on. Gcm counts in the last four bytes, from the one
 * after J0 on. After all ones, a counter goes on at zero. For b blocks of text, rounded up, came_round is 1
 *
 *   in Ctr   exactly if b is at least 1 and the IV, as a big-endian number, plus b - 1 reaches 2^128
 *   in Gcm   exactly if the last four bytes of J0, as a number, plus b reach 2^32; never with a 12-byte IV
 *
 * It is not a refusal: the output is right. To decrypt, ignore it. If you encrypt, take an unrelated IV for the next
 * message, not one counted on from this one: after the wrap the counters may be those of another message, and two
 * blocks with one counter and key have one key stream. Only luossavin_encrypt and luossavin_decrypt in Ctr and Gcm set
 * it, and in streaming the ends, for the whole message; always with number 0.
 *
 * Undefined behaviour, as usual in C: a pointer to fewer bytes (or label lengths) than stated beside it (NULL is fine
 * with length 0); bytes that another thread writes during the call; an output, or a shelf to put into, that overlaps an
 * input (inputs may overlap each other); a bool that is neither 0 nor 1.
 *
 * ABI: no struct here changes its layout while the first number of the version stays, states included. `by_answer` of a
 * replay has room for 32 numbers, so a new refusal changes no layout. */
struct luossavin_answer {
    uint32_t number;
    uint8_t missing;
    uint8_t came_round;
    uint16_t key;
    size_t length;
};

/* ---- Keys ----
 *
 * Set a key up once, under a number of your choice. Calls take the record by value. When a new key replaces it, retire
 * it, and keep the result:
 *
 *     key = luossavin_key_retire(key);
 *
 * A retired key still decrypts and opens. Every encryption under it is refusal 14. A record is a value, so mind this:
 *
 *   - A copy made before is not retired. Neither is a record set up again from the same bytes. Keep track of which
 *     numbers are retired.
 *   - A stream that was started before can be finished.
 *   - Two keys with the same number cannot be told apart by an answer.
 *   - A record, and every copy of it, is as secret as the key, retired or not.
 *
 * Every value of every field has a meaning:
 *
 *   round_keys   used as they are
 *   answer       0: a key. 13: calls answer 13. Anything else: calls answer 1. (Setting it up was refused)
 *   number       repeated in answers as it is, even 0
 *   retired      0: not retired. Anything else: retired
 *   engine       LUOSSAVIN_ENGINE_TABLES, _GATES or _PLAIN. Anything else: the library chooses
 *
 *   engine   look-ups by secrets         use it for
 *   chosen   only where tables are used  everything (the default). Gates in Ctr, Gcm, and decryption in Cfb and Cbc, at
 *                                        every length, also in streaming, ranges and luossavin_which. Tables in Ofb,
 *                                        encryption in Cfb and Cbc, and single blocks
 *   tables   4 KiB                       speed in Ofb, and encryption in Cfb and Cbc, where a block depends on the one
 *                                        before it
 *   gates    none                        every mode, if others may watch the caches. Bitsliced, up to 512 blocks at once.
 *                                        Where a block depends on the one before it, some ten times slower than tables
 *   plain    1 KiB                       comparison only
 *
 * Side channels: a table that is looked up by key or text can leak through the cache, so use the gates
 * (LUOSSAVIN_ENGINE_GATES) if untrusted code shares your processor. The gates, and GHASH under every engine, are
 * written to be constant-time: no address and no branch depends on key, text or label. The exceptions are the answer
 * itself (whether tag or padding is right, the length of the text, which label), and luossavin_replay, which compares
 * outputs byte by byte and stops at the first difference. This is tested on the compiled library (host/secrets), not
 * proved. Key set-up always uses the gates. A stream keeps the engine of its start. docs/SPEED.md has figures.
 *
 * A call uses less than 48 KiB of stack, with any engine; luossavin_replay less than 64 KiB. */
struct luossavin_key {
    uint32_t round_keys[32];
    uint32_t answer;
    uint16_t number;
    uint8_t retired;
    uint8_t engine;
};

/* Sets up a key of 16 bytes under a number from 1 to 65,535. `answer` of the record is 0, 1 or 13; you need not check
 * it, since every call on the record answers the same. The key is not retired, and its engine is the default. */
LUOSSAVIN_MUST_USE
struct luossavin_key luossavin_key_new(const uint8_t *key, size_t key_len, uint32_t number);

/* Returns the key with `retired` set to 1. A record that is not a key (`answer` is not 0) is returned unchanged. */
LUOSSAVIN_MUST_USE
struct luossavin_key luossavin_key_retire(struct luossavin_key key);

/* Returns the record with another engine: LUOSSAVIN_ENGINE_TABLES, _GATES or _PLAIN. For any other value the library
 * chooses. No other field changes, whatever the record is. */
LUOSSAVIN_MUST_USE
struct luossavin_key luossavin_key_engine(struct luossavin_key key, uint32_t engine);

/* ---- Editions ----
 *
 * Does this file open under this edition? Ask before you show a transcript. It is sealed in Gcm under a label (AAD) of
 * six bytes: the job in four and the edition in two, big-endian. A file that opens under one job and edition opens
 * under no other: if luossavin_edition_opens answers 0 for one, it answers 4 for every other. That is proved for every
 * key that does not encrypt the all-zero block to zero. */
struct luossavin_label {
    uint8_t bytes[6];
};

/* Returns the label of a job and an edition. Never refused. */
LUOSSAVIN_MUST_USE
struct luossavin_label luossavin_label(uint32_t job, uint16_t edition);

/* Does this sealed file open under a job and an edition? Answers 0 exactly if luossavin_edition_open, given room,
 * answers 0; otherwise its refusal: 1, 4, 5, 9, 10 or 13. Never 6: it makes no text and writes nothing. `length` and
 * `came_round` are 0. The file is read once. The key may be retired. */
LUOSSAVIN_MUST_USE
struct luossavin_answer luossavin_edition_opens(struct luossavin_key key, uint32_t job, uint16_t edition,
    const uint8_t *sealed, size_t sealed_len, const uint8_t *iv, size_t iv_len);

/* Seals a text: luossavin_encrypt in Gcm under the label of the job and the edition. Answers 0, 1, 5, 6, 10, 13 or 14. */
LUOSSAVIN_MUST_USE
struct luossavin_answer luossavin_edition_seal(struct luossavin_key key, uint32_t job, uint16_t edition,
    const uint8_t *text, size_t text_len, const uint8_t *iv, size_t iv_len, uint8_t *out, size_t room);

/* Opens a sealed file: luossavin_decrypt in Gcm under the label of the job and the edition. Answers 0, 1, 4, 5, 6, 9,
 * 10 or 13. */
LUOSSAVIN_MUST_USE
struct luossavin_answer luossavin_edition_open(struct luossavin_key key, uint32_t job, uint16_t edition,
    const uint8_t *sealed, size_t sealed_len, const uint8_t *iv, size_t iv_len, uint8_t *out, size_t room);

/* ---- Messages ----
 *
 * One block of 16 bytes, by GB/T 32907-2016. */
LUOSSAVIN_MUST_USE
struct luossavin_answer luossavin_block_encrypt(struct luossavin_key key,
    const uint8_t *block, size_t block_len, uint8_t *out, size_t room);
LUOSSAVIN_MUST_USE
struct luossavin_answer luossavin_block_decrypt(struct luossavin_key key,
    const uint8_t *block, size_t block_len, uint8_t *out, size_t room);

/* Encrypts `data`. Cbc always adds a padding of 1 to 16 bytes, each of which holds their count (RFC 5652). Gcm seals
 * `data` and the label `aad` (the associated data): it writes the ciphertext and then a tag of 16 bytes; the label is
 * not part of the output. Data may be empty. Answers 0, 1, 5, 6, 7, 10, 13 or 14. */
LUOSSAVIN_MUST_USE
struct luossavin_answer luossavin_encrypt(uint32_t mode, struct luossavin_key key,
    const uint8_t *aad, size_t aad_len, const uint8_t *data, size_t data_len,
    const uint8_t *iv, size_t iv_len, uint8_t *out, size_t room);

/* Decrypts `data`. Use the mode, key, label and IV that it was encrypted under. The key may be retired. Gcm writes
 * nothing before the tag is verified, and Cbc nothing before the padding is. Answers 0 to 10, 13 or 15: 2, 3, 8 and 15
 * in Cbc only, 4 and 9 in Gcm only. The text that you get encrypts to `data` again, if it is within the limit.
 *
 * Padding oracle: never show 3 or 15 of Cbc to untrusted callers, and do not let them tell a refusal from success in
 * another way. Who can have chosen messages decrypted, and learns which were refused for their padding, can recover a
 * text. 3 says that the last byte is no padding; 15 says that the bytes before it do not match it (RFC 5652): the file
 * is damaged near its end, or cut, or was encrypted under another key. A right padding does not mean that the text is
 * genuine: only Gcm has a tag over all of it. */
LUOSSAVIN_MUST_USE
struct luossavin_answer luossavin_decrypt(uint32_t mode, struct luossavin_key key,
    const uint8_t *aad, size_t aad_len, const uint8_t *data, size_t data_len,
    const uint8_t *iv, size_t iv_len, uint8_t *out, size_t room);

/* ---- Streaming: messages in pieces ----
 *
 * Pass a text piece by piece while it is still being written. Cut it anywhere; pieces may be empty. There are three
 * kinds: Ctr, either way; sealing in Gcm; and opening in Gcm, which answers whether a message opens and writes no text.
 * However you cut, the result is that of the single call: the outputs joined, with the tag of a seal at the end; and an
 * opening ends with 0 exactly if luossavin_decrypt, given room, would open the whole message, and otherwise with 4.
 * Sealing:
 *
 *     struct luossavin_seal_step s = luossavin_seal_start(key, label, label_len, iv, iv_len);
 *     struct luossavin_answer a = s.answer;
 *     while (a.number == LUOSSAVIN_DONE && (n = next_lines(text, sizeof text)) != 0) {
 *         a = luossavin_seal_add(&s.state, text, n, out, sizeof out);
 *         send(out, a.length);
 *     }
 *     if (a.number == LUOSSAVIN_DONE) {
 *         a = luossavin_seal_finish(&s.state, out, sizeof out);
 *         send(out, a.length);
 *     }
 *     luossavin_wipe(&s, sizeof s);
 *
 * A refusal sends nothing here, since its length is 0. Use luossavin_seal_add and the other functions in _add and
 * _finish: they update the state in place. The calls in _piece and _end take a state by value, and return the answer
 * with the next state.
 *
 *   n bytes of a piece          room needed   length when done   answers
 *   a start                     none          0                  0, 1, 13, 10, 14 for encryption, 5 for the label
 *   a piece, Ctr or sealing     n             n                  0, 5, 6, 12
 *   a piece, opening            none          0                  0, 5, 12
 *   Ctr's end                   none          0                  0, 12
 *   sealing's end               16            16: the tag        0, 6, 12
 *   opening's end               none          0                  0 for yes, 4 for no, 9, 12
 *
 * The pieces of a message have at most 16,777,216 bytes together; the piece that would pass this is refusal 5. A
 * message has ended when its end answers 0, or 4 for an opening; every call after that answers 12. Any other refusal
 * leaves the state as it was: repeat a piece that had too little room with more. If a start is refused, every call on
 * its state answers the same number. An end that answers 0 sets came_round for the whole message.
 *
 * Treat a state as opaque: do not look into it, and do not store it in a file. Every call has an answer for any
 * contents. Mind this:
 *
 *   - Never continue two copies of one state with different texts: both would use the same key stream, which reveals them.
 *   - A state is as secret as the key until an end has answered 0 or 4. After that it holds no secret.
 *   - Do not show or use any text before the end of the opening has answered 0. */
struct luossavin_flow {
    uint8_t counter[16];
    uint8_t pad[16];
};
struct luossavin_hashing {
    uint8_t h[16];
    uint8_t y[16];
    uint8_t held[16];
};
struct luossavin_ctr {
    uint32_t round_keys[32];
    struct luossavin_flow flow;
    uint8_t first[16];
    size_t total;
    uint32_t stands;
    uint16_t key;
    uint8_t engine;
};
struct luossavin_seal {
    uint32_t round_keys[32];
    struct luossavin_flow flow;
    struct luossavin_hashing hashing;
    uint8_t mask[16];
    size_t label;
    size_t total;
    uint32_t low;
    uint32_t stands;
    uint16_t key;
    uint8_t engine;
};
struct luossavin_opens {
    struct luossavin_hashing hashing;
    uint8_t mask[16];
    size_t label;
    size_t total;
    uint32_t low;
    uint32_t stands;
    uint16_t key;
};

/* An answer, and the next state. */
struct luossavin_ctr_step {
    struct luossavin_answer answer;
    struct luossavin_ctr state;
};
struct luossavin_seal_step {
    struct luossavin_answer answer;
    struct luossavin_seal state;
};
struct luossavin_opens_step {
    struct luossavin_answer answer;
    struct luossavin_opens state;
};

/* Ctr under an IV of 16 bytes. Encryption and decryption give the same bytes; a retired key can only decrypt. */
LUOSSAVIN_MUST_USE
struct luossavin_ctr_step luossavin_ctr_start(struct luossavin_key key, bool decrypt,
    const uint8_t *iv, size_t iv_len);
LUOSSAVIN_MUST_USE
struct luossavin_ctr_step luossavin_ctr_piece(struct luossavin_ctr state,
    const uint8_t *data, size_t data_len, uint8_t *out, size_t room);
LUOSSAVIN_MUST_USE
struct luossavin_ctr_step luossavin_ctr_end(struct luossavin_ctr state);

/* Sealing in Gcm under an IV of 12 or 16 bytes. The start takes the whole label (AAD). The end writes the tag. */
LUOSSAVIN_MUST_USE
struct luossavin_seal_step luossavin_seal_start(struct luossavin_key key,
    const uint8_t *aad, size_t aad_len, const uint8_t *iv, size_t iv_len);
LUOSSAVIN_MUST_USE
struct luossavin_seal_step luossavin_seal_piece(struct luossavin_seal state,
    const uint8_t *data, size_t data_len, uint8_t *out, size_t room);
LUOSSAVIN_MUST_USE
struct luossavin_seal_step luossavin_seal_end(struct luossavin_seal state, uint8_t *out, size_t room);

/* Does a Gcm message open under this key, label and IV? Pass the ciphertext in pieces, and its tag of 16 bytes to the
 * end. The key may be retired. */
LUOSSAVIN_MUST_USE
struct luossavin_opens_step luossavin_opens_start(struct luossavin_key key,
    const uint8_t *aad, size_t aad_len, const uint8_t *iv, size_t iv_len);
LUOSSAVIN_MUST_USE
struct luossavin_opens_step luossavin_opens_piece(struct luossavin_opens state,
    const uint8_t *data, size_t data_len);
LUOSSAVIN_MUST_USE
struct luossavin_opens_step luossavin_opens_end(struct luossavin_opens state,
    const uint8_t *tag, size_t tag_len);

/* The same, on a state that is updated in place. Prefer these: no old state can be continued by mistake, and no copy is
 * left in your own stack frame. */
LUOSSAVIN_MUST_USE
struct luossavin_answer luossavin_ctr_add(struct luossavin_ctr *state,
    const uint8_t *data, size_t data_len, uint8_t *out, size_t room);
LUOSSAVIN_MUST_USE
struct luossavin_answer luossavin_ctr_finish(struct luossavin_ctr *state);
LUOSSAVIN_MUST_USE
struct luossavin_answer luossavin_seal_add(struct luossavin_seal *state,
    const uint8_t *data, size_t data_len, uint8_t *out, size_t room);
LUOSSAVIN_MUST_USE
struct luossavin_answer luossavin_seal_finish(struct luossavin_seal *state, uint8_t *out, size_t room);
LUOSSAVIN_MUST_USE
struct luossavin_answer luossavin_opens_add(struct luossavin_opens *state, const uint8_t *data, size_t data_len);
LUOSSAVIN_MUST_USE
struct luossavin_answer luossavin_opens_finish(struct luossavin_opens *state, const uint8_t *tag, size_t tag_len);

/* ---- Which edition does this file open under? ----
 *
 * Pass a Gcm message and up to 64 candidate labels. Put the labels one after another into one buffer, with nothing
 * between them, and their lengths into an array. The lengths must add up to that of the buffer. A candidate may be
 * empty, and may come more than once.
 *
 *     const uint8_t labels[12] = {0, 0, 0, 7, 0, 1, 0, 0, 0, 7, 0, 2};
 *     const size_t lengths[2] = {LUOSSAVIN_LABEL_SIZE, LUOSSAVIN_LABEL_SIZE};
 *     struct luossavin_found f = luossavin_which(key, file, file_len, iv, iv_len, labels, 12, lengths, 2);
 *     if (f.answer.number != LUOSSAVIN_DONE) {
 *         say_refused(f.answer.number);
 *     } else if (f.found == 1) {
 *         say_opens_under(labels + f.start, f.length);
 *     } else {
 *         say_none_opens();
 *     }
 *
 *   result       number    found
 *   found        0         1       the candidate at `place`, counted from 0, is the first that opens the file:
 *                                  luossavin_decrypt, given room, answers 0 under it, and 4 under each one before.
 *                                  Its bytes are `length` bytes of the buffer, from `start`
 *   none         0         0       luossavin_decrypt answers 4 under every candidate: another label, key or IV, or a
 *                                  damaged file
 *   refused      not 0     0       nothing is known about any candidate
 *
 *   16      the count is above 64, or the lengths do not add up to labels_len (a sum that overflows does not)
 *    1, 13  the record is not a key
 *   10      the IV has neither 12 nor 16 bytes
 *    5      the file has more than 16,777,232 bytes, or one of the labels more than 16,777,216
 *    9      the file has fewer than 16 bytes; `missing` says how many it lacks
 *
 * Check `found`: `place`, `start` and `length` are 0 unless it is 1. The key may be retired. No text is made and
 * nothing is written. To get the text, call luossavin_decrypt under the label found, and show it only if that answers
 * 0. */
struct luossavin_found {
    struct luossavin_answer answer;
    uint32_t found;
    uint32_t place;
    size_t start;
    size_t length;
};

LUOSSAVIN_MUST_USE
struct luossavin_found luossavin_which(struct luossavin_key key, const uint8_t *sealed, size_t sealed_len,
    const uint8_t *iv, size_t iv_len, const uint8_t *labels, size_t labels_len,
    const size_t *lengths, size_t count);

/* ---- One Ctr message among several workers ----
 *
 * Ctr can start at any byte. A range is a stretch of a message from an offset on. Its output is that stretch of the
 * single call's output, whatever comes before and after it. Do the ranges of a message in any order, or at the same
 * time in several threads: they may share one data buffer and one output buffer, if no two of them write the same byte.
 *
 * A plan says who does what. Piece i is the `lengths[i]` bytes from `starts[i]`, for i from 0 to `count` - 1. A file of
 * n bytes among four workers:
 *
 *     struct luossavin_planned p = luossavin_plan_make(n, 4);
 *     for (size_t i = 0; i < p.plan.count; i++) {
 *         start_worker(i);
 *     }
 *
 * and worker i, with p.plan.starts[i] as start and p.plan.lengths[i] as length:
 *
 *     a = luossavin_ctr_range(key, false, iv, 16, start, data + start, length, out + start, length);
 *
 * You may make a plan yourself. It is accepted for n bytes exactly if
 *
 *   - it has at most 64 pieces, and none exactly if n is 0;
 *   - the first piece starts at 0, each starts where the one before ends, and the last ends at n, without overflow;
 *   - no piece is empty, and each length but the last is a multiple of 16.
 *
 * Entries from `count` on are ignored. The plans of luossavin_plan_make have pieces of 16 x (blocks / workers, rounded
 * up) bytes; the last one has the rest. There may be fewer pieces than workers, never more. Unused entries are 0, and
 * in a refusal all are.
 *
 * Any accepted plan gives the single call's bytes. For n bytes of data:
 *
 *                        room needed   length when done
 *   making a plan        none          0
 *   a range              n             n
 *   work by a plan       n             n
 *
 * None of these sets came_round: a range does not know where the message ends. The bytes are right all the same. If you
 * need to know, use the formula above, or the single call. Use one key and one IV for all ranges of a message, and
 * never encrypt two texts at the same offset under them: both would use the same key stream. */
struct luossavin_plan {
    size_t count;
    size_t starts[64];
    size_t lengths[64];
};

/* A plan, and the answer of its making. */
struct luossavin_planned {
    struct luossavin_answer answer;
    struct luossavin_plan plan;
};

/* Makes a plan of n bytes for 1 to 64 workers. Answers 0; 17 for another number of workers; or 5 if n is over
 * 16,777,216. `key` and `length` are 0. */
LUOSSAVIN_MUST_USE
struct luossavin_planned luossavin_plan_make(size_t n, size_t workers);

/* Is this plan accepted for n bytes? Never refused; n has no limit. */
LUOSSAVIN_MUST_USE
bool luossavin_plan_accepts(struct luossavin_plan plan, size_t n);

/* Ctr of `data`, which is at `offset` of its message. Pass the IV of the whole message, 16 bytes. Encryption and
 * decryption give the same bytes; a retired key can only decrypt. Answers 0, 1, 13, 10, 14 for encryption, 5 if offset
 * + data_len is over 16,777,216 (without overflow), or 6. */
LUOSSAVIN_MUST_USE
struct luossavin_answer luossavin_ctr_range(struct luossavin_key key, bool decrypt, const uint8_t *iv, size_t iv_len,
    size_t offset, const uint8_t *data, size_t data_len, uint8_t *out, size_t room);

/* Ctr of a whole message, range by range, as a plan says. Answers 0, 1, 13, 10, 14 for encryption, 5, 18 if the plan is
 * not accepted for data_len bytes, or 6. */
LUOSSAVIN_MUST_USE
struct luossavin_answer luossavin_ctr_by_plan(struct luossavin_key key, bool decrypt, const uint8_t *iv, size_t iv_len,
    struct luossavin_plan plan, const uint8_t *data, size_t data_len, uint8_t *out, size_t room);

/* ---- A shelf: sealed files in one buffer; the newest edition of each job is current ----
 *
 * The buffer has at most 65,536 bytes. Its first `used` bytes are records, one after another. Keep `used` with the
 * buffer; an empty shelf has used 0. The bytes after them are yours. A record is, with big-endian numbers:
 *
 *   bytes 0 and 1      52 44 for current, 52 58 for superseded
 *   bytes 2 to 5       the job
 *   bytes 6 and 7      the edition
 *   bytes 8 to 11      how many sealed bytes follow
 *   from byte 12 on    the sealed bytes: the output of luossavin_encrypt in Gcm. The shelf does not look at them
 *
 * Bytes 2 to 7 are the label of the job and the edition. Open a record under its own label:
 *
 *     struct luossavin_shelved r = luossavin_shelf_find(shelf, size, used, job);
 *     if (r.number == LUOSSAVIN_DONE) {
 *         const uint8_t *record = shelf + r.start;
 *         a = luossavin_decrypt(LUOSSAVIN_GCM, key, record + 2, LUOSSAVIN_LABEL_SIZE, record + LUOSSAVIN_SHELF_HEAD,
 *             r.length - LUOSSAVIN_SHELF_HEAD, iv, iv_len, out, room);
 *     }
 *
 * A job has one current record, or none. Putting in an edition makes its record current, and the one before superseded.
 * The edition must be higher than every edition of that job on the shelf, superseded ones too; a new job may begin at
 * 0. If the new record does not fit after the last one, putting collects first: it removes every superseded record, and
 * keeps the others in order. So it is refused for room exactly if the records that would then be current do not fit.
 *
 *   19   not a shelf: the buffer has more than 65,536 bytes, even if few are used; `used` is above the buffer's length; the
 *        records do not end exactly at `used`; a mark is unknown; or two records of one job are current. (Superseded records
 *        may repeat, and may be higher than the current one)
 *   20   put: the edition is not higher than every other of its job on the shelf
 *   21   put: no room in the buffer that you passed
 *   22   find: the job has no current record
 *
 * A refusal changes no byte of the buffer; `used` is what you passed, and start and length are 0. When a call is done,
 * the bytes from the new used count on are as they were before.
 *
 * A call remembers nothing: pass an older buffer or used count, and you get an older answer. Do not make two calls on
 * one buffer at once, and let nobody else write to it. A shelf is not sealed as a whole: who can write to it can remove
 * a record, and an older one may be found. Each record opens under its own label only. */
struct luossavin_shelf {
    uint32_t number;
    size_t used;
};
struct luossavin_shelved {
    uint32_t number;
    size_t start;
    size_t length;
};

/* Puts in an edition of a job. Answers 0, 19, 20 or 21, with the used count after the call. */
LUOSSAVIN_MUST_USE
struct luossavin_shelf luossavin_shelf_put(uint8_t *shelf, size_t size, size_t used, uint32_t job, uint16_t edition,
    const uint8_t *sealed, size_t sealed_len);

/* Removes every superseded record. Answers 0 or 19, with the used count after the call. */
LUOSSAVIN_MUST_USE
struct luossavin_shelf luossavin_shelf_collect(uint8_t *shelf, size_t size, size_t used);

/* Looks up the current record of a job: `length` bytes of the buffer, from `start`. Answers 0, 19 or 22. */
LUOSSAVIN_MUST_USE
struct luossavin_shelved luossavin_shelf_find(const uint8_t *shelf, size_t size, size_t used, uint32_t job);

/* ---- A journal: recorded calls of luossavin_encrypt and luossavin_decrypt, to be replayed and added up ----
 *
 * A journal is a sequence of records, with nothing between them and nothing at the end. It may be empty. Two journals
 * joined are a journal. Write records with luossavin_record. A record is, with big-endian numbers:
 *
 *   bytes 0 and 1   54 52
 *   byte 2          the direction: 0 encrypt, 1 decrypt
 *   byte 3          the mode
 *   bytes 4 and 5   the number of the key that was used, also in refusal 7, where the answer says 0
 *   then            label, data and IV, each after its length in four bytes
 *   then            the room in four bytes, and the number that was answered in one
 *   then            the output, after its length in four bytes; empty if the call was refused
 *
 * The shortest record has 27 bytes. Label, data and IV have at most 16,384 bytes each, and an output 16,400, which is
 * enough for such data. Longer calls cannot be recorded. Other fields of the answer (missing, key, came_round) are not
 * recorded.
 *
 * A replay takes up to eight keys, the first `count` of `keys`. It makes each call again, on the key with its number. A
 * record that is not a key (`answer` is not 0) may be among them: it has the number 0, and calls on such a record are
 * recorded with 0 too. Pass a key that was retired since as it was before; calls that were refused with 14 then differ.
 *
 *     struct luossavin_keys keys = {.count = 2, .keys = {old, current}};
 *     struct luossavin_replayed r = luossavin_replay(keys, file, file_len);
 *     if (r.number != LUOSSAVIN_DONE) {
 *         say_refused(r.number, r.place);
 *     }
 *     if (r.differs == 1) {
 *         say_differs(r.first_record, r.first_place);
 *     }
 *
 * A record differs if the number, the length or a byte of the output is now another than recorded. The replay reports
 * the first difference, and goes on. The totals are exact. They count all records, and the answers of now:
 *
 *   records      how many there are
 *   by_mode      how many in each mode from 0 to 4; by_mode[5] counts all modes above, which answer 7
 *   by_answer    how many with each number; entries without a refusal are 0
 *   bytes_in     the bytes of their data, refused calls included; labels and IVs are not counted
 *   bytes_out    the lengths that they answer
 *
 * by_mode and by_answer each add up to `records`.
 *
 * Refusals, in this order:
 *
 *   26   before any record: `count` is above 8, one of the keys is retired, or two have the same number (records that are
 *        not keys have the number 0). Everything else is 0 then
 *   23   the next bytes are not a whole record by the lengths in it, do not begin with the mark, or the direction is neither
 *        0 nor 1. A record that is cut is 23, even if a part of it is too long
 *   24   a part or the output of the record is too long. The recorded room may be any number
 *   25   none of the keys has its number; this is checked before the mode
 *
 * In 23, 24 and 25, `place` is the offset of that record in the file, and the report is that of the records before it.
 * In every other answer `place` is 0.
 *
 * Check `differs`, which is 1 or 0. If it is 1, `first_record` is the index of that record, from 0, and `first_place`
 * its offset. Otherwise both are 0.
 *
 * The file may have any length; nothing is written. A call gets at most 16,400 bytes of room, whatever was recorded.
 * They are on the stack: a replay uses less than 64 KiB of it.
 *
 * A journal contains the texts of its calls: keep it as secret as they are. It is not sealed: who can write to it can
 * make a record agree. */
struct luossavin_keys {
    size_t count;
    struct luossavin_key keys[8];
};
struct luossavin_replayed {
    uint32_t number;
    uint32_t differs;
    size_t place;
    uint64_t first_record;
    size_t first_place;
    uint64_t records;
    uint64_t by_mode[6];
    uint64_t by_answer[LUOSSAVIN_NUMBERS];
    uint64_t bytes_in;
    uint64_t bytes_out;
};

/* Writes the record of a call: pass what you passed to the call, the number that it answered, and its output (empty if
 * it was refused). Answers 0 with the length of the record; 24 if a part or the output is too long to be recorded; or
 * 6. The room needed is 27 bytes and those of the four parts. A mode or an answer above 255 is recorded as 255, and a
 * room above 2^32 - 1 as 2^32 - 1: such calls answer the same.
 *
 *     a = luossavin_encrypt(mode, key, aad, aad_len, data, data_len, iv, iv_len, out, room);
 *     r = luossavin_record(false, mode, key.number, aad, aad_len, data, data_len, iv, iv_len, room, a.number, out, a.length,
 *         journal + used, sizeof journal - used);
 *     used += r.length;
 */
LUOSSAVIN_MUST_USE
struct luossavin_answer luossavin_record(bool decrypt, uint32_t mode, uint16_t key, const uint8_t *aad, size_t aad_len,
    const uint8_t *data, size_t data_len, const uint8_t *iv, size_t iv_len, size_t room, uint32_t number,
    const uint8_t *output, size_t output_len, uint8_t *out, size_t out_room);

/* Replays the journal `file`. Answers 0, 23, 24, 25 or 26. */
LUOSSAVIN_MUST_USE
struct luossavin_replayed luossavin_replay(struct luossavin_keys keys, const uint8_t *file, size_t file_len);

/* ---- Hash the halves and join them (GHASH) ----
 *
 * Two servers each hold half of a long ciphertext, and you need its tag. Hash each half by itself, and join the hashes:
 *
 *     whole = first x H^n xor second
 *
 * where n is the number of blocks of the second half, rounded up. The product is GCM's. Either half may be empty: the
 * hash of nothing is 0, and with n = 0 you get the first hash back. Join more than two parts one after another.
 *
 * The first half must be whole blocks: its length must be a multiple of 16. Bytes that end inside a block are filled up
 * with zeros, as GCM does at the end of label and text; after such a half the joined hash is not that of the joined
 * bytes. Pass the number of blocks, not of bytes. The library cannot notice a wrong count.
 *
 * A hash is the big-endian number of its 16 bytes, in two halves of 64 bits. Every value is valid; nothing is refused,
 * and there is no limit. H is the encryption of sixteen zero bytes (luossavin_block_encrypt). It is as secret as the
 * key: with H tags can be forged. luossavin_block_encrypt uses tables by default: to make H without table look-ups, use
 * a key with LUOSSAVIN_ENGINE_GATES. The tag of a label and a ciphertext of n bytes, the first `cut` of which are one
 * half:
 *
 *     h       = the sixteen encrypted zero bytes, as a hash
 *     j0      = the IV and then 00000001, if the IV has 12 bytes; otherwise the sixteen bytes of
 *               luossavin_hash_blocks(h, the IV and then the number 128 in 16 bytes, 32)
 *     lengths = 8 * label_len and then 8 * n, in 8 bytes each
 *
 *     y = luossavin_hash_blocks(h, label, label_len);
 *     y = luossavin_hash_join(h, y, luossavin_hash_blocks(h, text, cut), cut / 16);
 *     y = luossavin_hash_join(h, y, luossavin_hash_blocks(h, text + cut, n - cut), (n - cut + 15) / 16);
 *     y = luossavin_hash_join(h, y, luossavin_hash_blocks(h, lengths, 16), 1);
 *
 * The tag is the encrypted j0, xored with the sixteen bytes of y. It is the tag that luossavin_encrypt makes. */
struct luossavin_hash {
    uint64_t high;
    uint64_t low;
};

/* The hash of `bytes` under H, with zeros up to the end of the last block. */
LUOSSAVIN_MUST_USE
struct luossavin_hash luossavin_hash_blocks(struct luossavin_hash h, const uint8_t *bytes, size_t bytes_len);

/* Joins two hashes under H; the second is of `second_blocks` blocks. It takes at most 64 squarings, for any count. */
LUOSSAVIN_MUST_USE
struct luossavin_hash luossavin_hash_join(struct luossavin_hash h, struct luossavin_hash first,
    struct luossavin_hash second, uint64_t second_blocks);

/* ---- Wiping, and names ----
 *
 * Not proved: a few lines of C, which are tested.
 *
 * luossavin_wipe overwrites `size` bytes with zeros, and no compiler can drop that. Wipe a key's bytes, its record, a
 * state, H and hashes made with it, a text, and a journal.
 *
 * luossavin_wipe_stack overwrites 64 KiB of the stack below its caller, where calls leave copies of round keys, states,
 * H and key stream. A compiler may keep copies of arguments in the frame of the function that makes the call. So wipe
 * records and states in the function that holds them, return from it, and call luossavin_wipe_stack from the function
 * above:
 *
 *     static int serve(..) { .. luossavin_wipe(&key, sizeof key); return status; }
 *     status = serve(..);
 *     luossavin_wipe_stack();
 *
 * Neither reaches registers, pages that were swapped out, or copies that your program made. */
void luossavin_wipe(void *bytes, size_t size);
void luossavin_wipe_stack(void);

/* The version of the library, such as "1.3.0". */
const char *luossavin_version(void);

/* The name of a number: "InvalidTag" for 4, "Done" for 0, "Unknown" for a number that has no name. */
const char *luossavin_refusal_name(uint32_t number);

#ifdef __cplusplus
}
#endif

#endif
