/* One Ctr message among workers that run at the same time: each piece of a plan in a thread of its own, on its own
 * stretch of one data and one output buffer, and every byte against the single call.
 *
 *   workers CORES
 *
 * Plans are the planner's for 1, CORES, 3 and 64 workers, and one of a host's own with uneven pieces; each is also
 * worked by in one call. It is done both ways, decryption under the retired key, for the longest text and others, most
 * of which do not divide by 16, and where a counter comes round. Workers are on the engine that the library chooses, and the single call
 * on the plain one. Then it prints how long 16 MiB take with one worker and with CORES, on each engine. Exit status 1 if anything is wrong.
 */
#define _POSIX_C_SOURCE 200809L

#include "calls.h"
#include "random.h"
#include "variant.h"
#include "wrap.h"

#include <pthread.h>
#include <stdio.h>
#include <stdlib.h>
#include <string.h>
#include <time.h>

enum { NUMBER = 4711, EDGE = 64, LENT = 0xa5, RUNS = 5, PRINTED = 20 };

static const uint8_t key_bytes[16] = {1, 35, 69, 103, 137, 171, 205, 239, 254, 220, 186, 152, 118, 84, 50, 16};

static uint8_t text[LIMIT], sealed[LIMIT], out[LIMIT + EDGE];

static size_t wrong, pieces_done;

/* A message to encrypt or decrypt, and the bytes of the single call. */
struct job {
    struct luossavin_key key;
    bool decrypt;
    const uint8_t *iv, *data, *due;
    size_t n;
};

/* One piece of it. */
struct worker {
    pthread_t thread;
    const struct job *job;
    size_t start, length;
    struct luossavin_answer answer;
};

static void is_wrong(const struct job *j, const char *how, const char *what, size_t where)
{
    if (++wrong <= PRINTED) {
        printf("wrong: %s of %zu bytes, %s: %s %zu\n", j->decrypt ? "decryption" : "encryption", j->n, how, what,
            where);
    }
}

/* A call on `length` bytes from `start` on is done, and says nothing of counters. */
static void is_done(const struct job *j, const char *how, struct luossavin_answer got, size_t start, size_t length)
{
    const struct luossavin_answer due = {.key = NUMBER, .length = length};
    if (difference(got, due) != NULL) {
        is_wrong(j, how, "the answer from", start);
    }
}

/* The output has another byte than the one due everywhere, and an edge behind it. */
static void spoil(const struct job *j)
{
    for (size_t i = 0; i < j->n; i++) {
        out[i] = (uint8_t)~j->due[i];
    }
    memset(out + j->n, LENT, EDGE);
}

static void compare(const struct job *j, const char *how)
{
    for (size_t i = 0; i < j->n; i++) {
        if (out[i] != j->due[i]) {
            is_wrong(j, how, "the byte at", i);
            return;
        }
    }
    for (size_t i = j->n; i < j->n + EDGE; i++) {
        if (out[i] != LENT) {
            is_wrong(j, how, "behind the end it writes at", i);
            return;
        }
    }
}

/* Workers wait here until all of them are there, so that a short piece is not over before the next one starts. */
static pthread_barrier_t all_there;

static void *do_piece(void *its_worker)
{
    struct worker *w = its_worker;
    const struct job *j = w->job;
    pthread_barrier_wait(&all_there);
    w->answer = luossavin_ctr_range(j->key, j->decrypt, j->iv, 16, w->start, j->data + w->start, w->length,
        out + w->start, w->length);
    return NULL;
}

/* Every piece of an accepted plan, in a thread of its own. */
static void do_together(const struct job *j, const struct luossavin_plan *p)
{
    struct worker workers[WORKERS];
    if (p->count == 0) {
        return;
    }
    pthread_barrier_init(&all_there, NULL, (unsigned)p->count);
    for (size_t i = 0; i < p->count; i++) {
        workers[i] = (struct worker){.job = j, .start = p->starts[i], .length = p->lengths[i]};
        if (pthread_create(&workers[i].thread, NULL, do_piece, &workers[i]) != 0) {
            fprintf(stderr, "no thread for worker %zu\n", i);
            exit(2);
        }
    }
    for (size_t i = 0; i < p->count; i++) {
        pthread_join(workers[i].thread, NULL);
        is_done(j, "in threads", workers[i].answer, workers[i].start, workers[i].length);
    }
    pthread_barrier_destroy(&all_there);
    pieces_done += p->count;
}

/* A plan in threads, and in one call. */
static void work_by(const struct job *j, const struct luossavin_plan *p)
{
    struct luossavin_answer a;
    if (!is_accepted(p, j->n) || !luossavin_plan_accepts(*p, j->n)) {
        is_wrong(j, "a plan", "it is not accepted, with a count of", p->count);
        return;
    }
    spoil(j);
    do_together(j, p);
    compare(j, "in threads");
    spoil(j);
    a = luossavin_ctr_by_plan(j->key, j->decrypt, j->iv, 16, *p, j->data, j->n, out, j->n);
    is_done(j, "by a plan", a, 0, j->n);
    compare(j, "by a plan");
}

/* A host's own plan: each piece is twice as long as the one before, and the last one is what is left. */
static struct luossavin_plan doubling(size_t n)
{
    struct luossavin_plan p = {0};
    for (size_t at = 0, length = 16; at < n; at += length, length *= 2) {
        p.starts[p.count] = at;
        p.lengths[p.count] = length < n - at ? length : n - at;
        p.count++;
    }
    return p;
}

static void work(const struct job *j, size_t cores)
{
    const size_t crowds[] = {1, cores, 3, WORKERS};
    struct luossavin_plan p = doubling(j->n);
    work_by(j, &p);
    for (size_t i = 0; i < sizeof crowds / sizeof *crowds; i++) {
        p = luossavin_plan_make(j->n, crowds[i]).plan;
        work_by(j, &p);
    }
}

/* The single call is done. Whether a counter came round, which it alone says, is for host/smoke to hold. */
static void single_is_done(const struct job *j, struct luossavin_answer got)
{
    got.came_round = 0;
    is_done(j, "the single call", got, 0, j->n);
}

/* Encryption of the text's first n bytes: what is due is the single call's, on the plain engine. */
static struct job encryption(const uint8_t *iv, size_t n)
{
    struct job j = {luossavin_key_engine(luossavin_key_new(key_bytes, 16, NUMBER), PLAIN), false, iv, text, sealed, n};
    single_is_done(&j, luossavin_encrypt(CTR, j.key, NULL, 0, text, n, iv, 16, sealed, n));
    j.key = luossavin_key_engine(j.key, CHOSEN);
    return j;
}

/* And back, under the retired key: what is due is the text, which the single call must give as well. */
static struct job decryption(const struct job *there)
{
    struct job j = {luossavin_key_retire(there->key), true, there->iv, sealed, text, there->n};
    spoil(&j);
    single_is_done(&j, luossavin_decrypt(CTR, j.key, NULL, 0, sealed, j.n, j.iv, 16, out, j.n));
    compare(&j, "the single call");
    return j;
}

static void both_ways(const uint8_t *iv, size_t n, size_t cores)
{
    struct job there = encryption(iv, n), back;
    work(&there, cores);
    back = decryption(&there);
    work(&back, cores);
}

/* How long a plan takes in threads, their start and end among it. */
static double seconds_by(const struct job *j, const struct luossavin_plan *p)
{
    struct timespec from, to;
    clock_gettime(CLOCK_MONOTONIC, &from);
    do_together(j, p);
    clock_gettime(CLOCK_MONOTONIC, &to);
    return (double)(to.tv_sec - from.tv_sec) + 1e-9 * (double)(to.tv_nsec - from.tv_nsec);
}

/* The best of some runs, one worker and many by turns, on an engine. */
static void print_times(const uint8_t *iv, size_t cores, uint32_t engine)
{
    static const char *const names[ENGINES] = {"chosen", "four tables", "gates", "plain engine"};
    struct job j = encryption(iv, LIMIT);
    struct luossavin_plan one = luossavin_plan_make(LIMIT, 1).plan, many = luossavin_plan_make(LIMIT, cores).plan;
    double alone = 0, shared = 0, s;
    j.key = luossavin_key_engine(j.key, engine);
    for (int i = 0; i < RUNS; i++) {
        s = seconds_by(&j, &one);
        alone = i == 0 || s < alone ? s : alone;
        s = seconds_by(&j, &many);
        shared = i == 0 || s < shared ? s : shared;
    }
    printf("16 MiB, %s, the best of %d runs: 1 worker %.3f s, %zu workers %.3f s\n", names[engine], RUNS, alone, cores, shared);
}

int main(int argc, char **argv)
{
    static const size_t lengths[] = {0, 1, 15, 16, 17, 100, 1023, 1025, 65536 + 5, 1000003};
    const uint8_t plain[16] = {7};
    uint8_t ones[16], halfway[16];
    size_t cores = argc == 2 ? strtoul(argv[1], NULL, 10) : 0;
    if (cores == 0) {
        fprintf(stderr, "usage: workers CORES\n");
        return 64;
    }
    cores = cores < WORKERS ? cores : WORKERS;
    memset(ones, 0xff, sizeof ones);
    iv_near_ctr_wrap(halfway, LIMIT / 32);
    draw_bytes(text, LIMIT);
    for (size_t i = 0; i < sizeof lengths / sizeof *lengths; i++) {
        both_ways(plain, lengths[i], cores);
        both_ways(ones, lengths[i], cores);
    }
    both_ways(plain, LIMIT, cores);
    both_ways(halfway, LIMIT - 5, cores);
    printf("%zu pieces in threads, %zu wrong, on %s\n", pieces_done, wrong, variant_name());
    for (uint32_t engine = CHOSEN; wrong == 0 && engine < ENGINES; engine++) {
        print_times(plain, cores, engine);
    }
    return wrong != 0;
}
