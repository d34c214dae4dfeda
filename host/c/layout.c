/* Where the fields of the header's structs stand: whoever calls the library from another language goes by that. Nothing here is run. */
#include "luossavin.h"

#include <stddef.h>

#define SIZE(type, bytes) _Static_assert(sizeof(struct luossavin_##type) == (bytes), "the size of luossavin_" #type);
#define AT(type, field, bytes) _Static_assert(offsetof(struct luossavin_##type, field) == (bytes), #field " of luossavin_" #type);

/* In an answer, number and length stand where they stood before others came into the hole between them. */
SIZE(answer, 16) AT(answer, number, 0) AT(answer, missing, 4) AT(answer, came_round, 5) AT(answer, key, 6) AT(answer, length, 8)
SIZE(key, 136) AT(key, round_keys, 0) AT(key, answer, 128) AT(key, number, 132) AT(key, retired, 134) AT(key, engine, 135)
SIZE(label, LUOSSAVIN_LABEL_SIZE)
SIZE(ctr, 192) AT(ctr, flow, 128) AT(ctr, first, 160) AT(ctr, total, 176) AT(ctr, stands, 184) AT(ctr, key, 188) AT(ctr, engine, 190)
AT(ctr_step, state, 16)
SIZE(seal, 256) AT(seal, flow, 128) AT(seal, hashing, 160) AT(seal, mask, 208) AT(seal, label, 224) AT(seal, total, 232)
    AT(seal, low, 240) AT(seal, stands, 244) AT(seal, key, 248) AT(seal, engine, 250)
AT(seal_step, state, 16)
SIZE(opens, 96) AT(opens, mask, 48) AT(opens, label, 64) AT(opens, total, 72) AT(opens, low, 80) AT(opens, stands, 84) AT(opens, key, 88)
AT(opens_step, state, 16)
SIZE(found, 40) AT(found, answer, 0) AT(found, found, 16) AT(found, place, 20) AT(found, start, 24) AT(found, length, 32)
SIZE(plan, 1032) AT(plan, count, 0) AT(plan, starts, 8) AT(plan, lengths, 520)
SIZE(planned, 1048) AT(planned, answer, 0) AT(planned, plan, 16)
SIZE(shelf, 16) AT(shelf, number, 0) AT(shelf, used, 8)
SIZE(shelved, 24) AT(shelved, number, 0) AT(shelved, start, 8) AT(shelved, length, 16)
SIZE(keys, 8 + 8 * 136) AT(keys, count, 0) AT(keys, keys, 8)
SIZE(replayed, 360) AT(replayed, number, 0) AT(replayed, differs, 4) AT(replayed, place, 8) AT(replayed, first_record, 16)
    AT(replayed, first_place, 24) AT(replayed, records, 32) AT(replayed, by_mode, 40) AT(replayed, by_answer, 88)
    AT(replayed, bytes_in, 344) AT(replayed, bytes_out, 352)
SIZE(hash, 16) AT(hash, high, 0) AT(hash, low, 8)
