/* What a host in C has beside the proved calls: pieces on a state that stays in its place, wiping, and names. Nothing here is proved: it is tested
 * (host/smoke). */
#include <luossavin.h>
#include <string.h>

/* A call takes less than this of the stack (host/c/test_stack.c). */
enum { STACK = 64 << 10 };

/* The compiler is told that the bytes are looked at afterwards, so that it does not leave the writes out. */
void luossavin_wipe(void *bytes, size_t size)
{
    if (size != 0) {
        memset(bytes, 0, size);
        __asm__ volatile("" : : "r"(bytes) : "memory");
    }
}

__attribute__((noinline)) void luossavin_wipe_stack(void)
{
    uint8_t stack[STACK];
    luossavin_wipe(stack, sizeof stack);
}

/* A call gives the next state beside its answer: it takes the place of the one before, and the copy here is wiped. */
#define TAKE_UP(state, step) \
    struct luossavin_answer answer = (step).answer; \
    *(state) = (step).state; \
    luossavin_wipe(&(step), sizeof(step)); \
    return answer

struct luossavin_answer luossavin_ctr_add(struct luossavin_ctr *state, const uint8_t *data, size_t data_len, uint8_t *out, size_t room)
{
    struct luossavin_ctr_step step = luossavin_ctr_piece(*state, data, data_len, out, room);
    TAKE_UP(state, step);
}

struct luossavin_answer luossavin_ctr_finish(struct luossavin_ctr *state)
{
    struct luossavin_ctr_step step = luossavin_ctr_end(*state);
    TAKE_UP(state, step);
}

struct luossavin_answer luossavin_seal_add(struct luossavin_seal *state, const uint8_t *data, size_t data_len, uint8_t *out, size_t room)
{
    struct luossavin_seal_step step = luossavin_seal_piece(*state, data, data_len, out, room);
    TAKE_UP(state, step);
}

struct luossavin_answer luossavin_seal_finish(struct luossavin_seal *state, uint8_t *out, size_t room)
{
    struct luossavin_seal_step step = luossavin_seal_end(*state, out, room);
    TAKE_UP(state, step);
}

struct luossavin_answer luossavin_opens_add(struct luossavin_opens *state, const uint8_t *data, size_t data_len)
{
    struct luossavin_opens_step step = luossavin_opens_piece(*state, data, data_len);
    TAKE_UP(state, step);
}

struct luossavin_answer luossavin_opens_finish(struct luossavin_opens *state, const uint8_t *tag, size_t tag_len)
{
    struct luossavin_opens_step step = luossavin_opens_end(*state, tag, tag_len);
    TAKE_UP(state, step);
}

static const char *const names[] = {
    /* numbers.txt: names of C */
    "Done",
    "ErrorBlockSize",
    "ErrorDataLen",
    "InvalidLastU8",
    "InvalidTag",
    "TooLong",
    "NoRoom",
    "BadMode",
    "EmptyCbc",
    "ShortGcm",
    "WrongIv",
    "WrongBlock",
    "Ended",
    "WrongNumber",
    "Retired",
    "InvalidPadding",
    "BadList",
    "BadWorkers",
    "NotAccepted",
    "BadShelf",
    "NotHigher",
    "NoShelfRoom",
    "NoCurrent",
    "BadRecord",
    "PartTooLong",
    "UnknownKey",
    "BadKeys",
    /* numbers.txt: end */
};

const char *luossavin_version(void)
{
    return LUOSSAVIN_VERSION;
}

const char *luossavin_refusal_name(uint32_t number)
{
    return number < sizeof names / sizeof *names ? names[number] : "Unknown";
}
