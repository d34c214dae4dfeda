/* What the files of the program `test` share. */
#ifndef TEST_H
#define TEST_H

#include "buffers.h"
#include "calls.h"

/* Whether messages, labels and shelves as long as may be are tried too; and whether fewer of the others are, for valgrind. */
extern int with_limits, is_sparse;

/* How many calls were held to a model or to the rules, how many of them for each number, and in how many a counter came round. */
extern unsigned long calls, calls_for[NUMBERS], came_round;

/* Counts a check, and prints it where it does not hold. */
void check(int holds, const char *what, const char *where, size_t n);

/* Says what runs, for a check on it that does not hold: a fault has no other way to name it. */
extern void (*describe)(char *words, size_t room);

/* A check on what runs: that nothing is wrong with it. Whether nothing is. */
int holds_now(const char *wrong);

/* The same for a call to which that number is due, and for one whose answer is to be `due`. These are counted as calls. */
int judged(uint32_t due, const char *wrong);
int judge(struct luossavin_answer got, struct luossavin_answer due);

/* Where the output or an input is not as it should be: its first `length` bytes are written, and no byte else; and inputs hold what they
 * held. */
int wrote_only(struct buffer out, size_t length);
int kept(struct buffer input);

/* The key that calls are on, with its number; a call may be on it as it is, or on a record with these fields, on the same engine or on each
 * of them in turn, which no answer and no byte shows. */
enum { NUMBER = 0x1267 };
extern const uint8_t key_bytes[17];
extern struct luossavin_key key;
extern int in_turn;
struct luossavin_key record(struct holder fields);

/* Fields of records: a key, a retired one, and no keys. */
extern const struct holder sound, old, none, unnumbered;

/* Records of every kind, of which the first is a key and the second a retired one; and every combination of what their fields may be. */
enum { HOLDERS = 9 };
extern const struct holder holders[HOLDERS];
void every_record(void (*what)(struct holder fields));

/* Lengths of IVs, of which only 12 and 16 are ever taken. */
enum { IVS = 10 };
extern const size_t iv_lengths[IVS];

extern const uint8_t iv[17], label[6];

/* One byte more than any limit. */
extern const uint8_t too_long[LIMIT + 1];

/* RFC 8998, appendix A.1: Gcm under a 12-byte IV. */
extern const uint8_t rfc_key[16], rfc_iv[12], rfc_label[20], rfc_text[64], rfc_sealed[80];

/* Outputs of ROOM bytes, which `lend_again` lends. */
enum { ROOM = 80 };
extern struct buffer one, two;

/* Whether a call on the key is done with that length: nothing is missing then, and no counter came round. */
int done(struct luossavin_answer a, size_t length);

/* The answer of a call on `one`, where no byte is written that is not part of its length. */
void answered(struct luossavin_answer a, struct luossavin_answer due, const char *what);

/* The same for a refusal: nothing is missing, and it has the key's number unless it says that there is no key, or no mode. */
void refused(struct luossavin_answer a, uint32_t number, const char *what);

/* What a call is lent beside data: an IV and a label, which it may only read. */
struct beside {
    struct buffer iv, label;
    uint8_t kept_iv[32];
};

struct beside lend_beside(uint32_t mode, size_t iv, size_t label);
void take_back(struct beside b);

/* IVs of 16 bytes have so many counters before the one that is all ones, in Ctr and in Gcm, where J0's is the first
 * of them; in the other modes they are the same as in Ctr. FAR is more than a short text has. */
enum { FAR = 1000 };
extern uint32_t before_wrap;
void near_wrap(uint32_t mode, uint8_t iv[16]);

/* The message of a call: plain bytes; for decryption in Cbc and Gcm, where the sizes allow it, one that was sealed, whether or not the
 * record of the call could seal it. */
struct buffer message(const struct whole *w, struct beside b);

/* A call on a whole message or on a block, with its buffers lent; and one that is to do the same by another name. */
typedef struct luossavin_answer caller(const struct whole *w, struct luossavin_key key, const uint8_t *iv, const uint8_t *label,
    const uint8_t *data, uint8_t *out);
void try_whole(struct whole w);
void try_whole_by(caller *call, struct whole w);

/* The header's loop, in pieces of `by` bytes: of a started message, whose start answered `a`. What is written goes
 * to `out`; opening reads its tag behind the data. */
struct luossavin_answer go_by(size_t by, struct luossavin_answer a, struct state *s, const uint8_t *data, size_t n,
    uint8_t *out, size_t room);

/* The tests on the key, which are run on each engine. */
void whole_messages(void);
void paddings(void);
void keys(void);
void pieces(void);
void which(void);
void editions(void);
void rounds(void);
void workers(void);

/* Those of every size, record, room and value, on the engines in turn. */
void whole_messages_of_any_size(void);
void keys_of_any_size(void);
void pieces_of_any_size(void);
void which_of_any_size(void);
void editions_of_any_size(void);
void workers_of_any_size(void);

/* Those without a key of their own. */
void shelves(void);
void journals(void);
void halves(void);

/* Those in plain memory alone: the engines side by side, long messages on them, and the stack. */
void engines(void);
void long_messages(void);
void stack(void);
void wiping(void);

#endif
