/* What the files of the test of secrets share: the secrets, and the parts of a run that are watched. */
#ifndef SECRETS_H
#define SECRETS_H

#include "calls.h"

/* What a part does with secrets: SM4's rounds, which the four tables and the plain engine look up for, or rounds of nothing, which need not be made; and
 * a question whose answer is yes or no, or a place, and is shown. Where blocks wait for one another, the library chooses the four tables. A part that
 * does none of these shows nothing whatever the engine is. */
enum { NEITHER = 0, ROUNDS = 1, ANSWERS = 2, PERHAPS_ROUNDS = 4, WAITS = 8 };

enum { MOST = 20000, LABEL = 37, NUMBER = 7 };

/* Which secrets these are, from 0 to 9. */
extern unsigned which_secrets;

/* Key, label and text, which are secret, and an IV, which is not. */
extern uint8_t key_bytes[16], label[LABEL], text[MOST];
extern const uint8_t iv[16];
extern struct luossavin_key key;

/* The lengths of text that are run, and how many of them. */
extern const size_t *lengths;
extern size_t lengths_count;

/* All that is lent for output. */
extern uint8_t out[MOST + 16], back[MOST + 16];

/* A buffer is secret from here on, or known. */
void make_secret(void *bytes, size_t count);
void make_known(void *bytes, size_t count);

/* That bytes which come of secrets in the part that was last watched are still marked as such: what was lost on the way would be overlooked from there on.
 * Not where something is looked up: what is found in a table counts as known. */
void stays_secret(const uint8_t *bytes, size_t count);

/* A part of the run is watched from here on; and up to here, where what it answered is known, and has the number that is
 * due. */
void watch(unsigned does, const char *format, ...) __attribute__((format(printf, 2, 3)));
void is_answered(struct luossavin_answer *a, uint32_t due);

/* The same where there is no number: whatever was answered stays as it is. */
void is_done(void);

/* The parts: of messages in pieces and in ranges, of what is answered with yes or no, and of hashes. */
void in_pieces(void);
void in_ranges(void);
void answers(void);
void replays(void);
void hashes(void);

#endif
