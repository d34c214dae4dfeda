#include "records.h"

#include <stdio.h>
#include <stdlib.h>
#include <string.h>

/* Longer than any field that is ever recorded. */
static const uint32_t longest = 1u << 26;

const char *const mode_names[6] = {"Cfb", "Ofb", "Ctr", "Cbc", "Gcm", "block"};
const char *const direction_names[2] = {"encrypt", "decrypt"};
const char *const answer_names[6] = {
    "Ok", "ErrorBlockSize", "ErrorDataLen", "InvalidLastU8", "InvalidTag", "a panic"};

static void fill(void *to, size_t count)
{
    if (fread(to, 1, count, stdin) != count) {
        fprintf(stderr, "the list of answers is cut\n");
        exit(2);
    }
}

static uint32_t number(const uint8_t *b)
{
    return (uint32_t)b[0] << 24 | (uint32_t)b[1] << 16 | (uint32_t)b[2] << 8 | b[3];
}

uint32_t read_head(void)
{
    uint8_t head[24];
    fill(head, sizeof head);
    if (memcmp(head, "luossavin answers 1\n", 20) != 0) {
        fprintf(stderr, "this is no list of answers\n");
        exit(2);
    }
    return number(head + 20);
}

void read_record(struct record *r)
{
    static uint8_t *all;
    static size_t room;
    uint8_t head[24];
    struct field *fields[] = {&r->key, &r->iv, &r->label, &r->data, &r->output};
    size_t total = 0;
    fill(head, sizeof head);
    r->part = head[0];
    r->direction = head[1];
    r->mode = head[2];
    r->name = head[3];
    for (int i = 0; i < 5; i++) {
        uint32_t length = number(head + 4 + 4 * i);
        if (length > longest || r->mode > BLOCK || r->direction > DECRYPT || r->name > PANICKED) {
            fprintf(stderr, "the list of answers has a record that is none\n");
            exit(2);
        }
        fields[i]->length = length;
        total += length;
    }
    if (total > room) {
        free(all);
        room = total;
        all = malloc(room);
        if (all == NULL) {
            fprintf(stderr, "no memory for a record\n");
            exit(2);
        }
    }
    fill(all, total);
    total = 0;
    for (int i = 0; i < 5; i++) {
        fields[i]->bytes = all + total;
        total += fields[i]->length;
    }
}
