/* A plugin of qemu-user: counts the instructions that the emulated program runs.
 *
 *   gcc -O2 -shared -fPIC -DPLUGIN_VERSION=1 count.c -o count.so
 *   qemu-x86_64 -cpu qemu64 -plugin ./count.so,to=FILE PROGRAM ..       writes the counts to FILE
 *
 * The counts are of all instructions, of the ands, ors and exclusive ors on sixteen bytes or more at once, and of those on
 * fewer. The emulator cuts a program into straight pieces and runs them over and over. Each piece is asked for
 * its counts once, when it is translated, and these are added whenever it runs. Debian has no header for
 * the interface, so the part of it that is used is declared here; it is the same in versions 1 and 2.
 */
#include <stddef.h>
#include <stdint.h>
#include <stdio.h>
#include <stdlib.h>
#include <string.h>

typedef uint64_t id;
struct qemu_plugin_tb;
struct qemu_plugin_insn;

enum { NO_REGISTERS = 0 };

void qemu_plugin_register_vcpu_tb_trans_cb(id, void (*)(id, struct qemu_plugin_tb *));
void qemu_plugin_register_vcpu_tb_exec_cb(
    struct qemu_plugin_tb *, void (*)(unsigned, void *), int registers, void *);
void qemu_plugin_register_atexit_cb(id, void (*)(id, void *), void *);
size_t qemu_plugin_tb_n_insns(const struct qemu_plugin_tb *);
struct qemu_plugin_insn *qemu_plugin_tb_get_insn(const struct qemu_plugin_tb *, size_t);
const void *qemu_plugin_insn_data(const struct qemu_plugin_insn *);
size_t qemu_plugin_insn_size(const struct qemu_plugin_insn *);

#define SEEN_BY_QEMU __attribute__((visibility("default")))

SEEN_BY_QEMU int qemu_plugin_version = PLUGIN_VERSION;

struct counts {
    uint64_t instructions, wide, narrow;
};

static struct counts all;
static char file[4096];

static void runs(unsigned cpu, void *piece)
{
    const struct counts *c = piece;
    (void)cpu;
    all.instructions += c->instructions;
    all.wide += c->wide;
    all.narrow += c->narrow;
}

/* AVX's, which have the prefix c5 and a byte, or c4 and two: the same eight; and andn, on words. */
static void count_vex(const uint8_t *b, size_t n, struct counts *c)
{
    size_t at = b[0] == 0xc5 ? 2 : 3;
    unsigned map = b[0] == 0xc5 ? 1 : b[1] & 0x1f;
    if (n <= at) {
        return;
    }
    uint8_t next = b[at];
    if (map == 1) {
        c->wide += (next >= 0x54 && next <= 0x57) || next == 0xdb || next == 0xdf || next == 0xeb || next == 0xef;
    } else if (map == 2) {
        c->narrow += next == 0xf2;
    }
}

/* An instruction by its bytes: behind the prefixes 66 and 40 to 4f, SSE's pand, pandn, por, pxor and their like for floats are
 * 0f and one of eight; ands, ors and exclusive ors are 08 to 0d, 20 to 25 and 30 to 35, or 80 to 83 with the word in the next
 * byte. A register that is xored with itself is 0, and nothing of the kind. */
static void count_logical(const uint8_t *b, size_t n, struct counts *c)
{
    size_t i = 0;
    if (n > 2 && (b[0] == 0xc4 || b[0] == 0xc5)) {
        count_vex(b, n, c);
        return;
    }
    while (i + 2 < n && (b[i] == 0x66 || b[i] >> 4 == 4)) {
        i++;
    }
    if (i + 1 >= n) {
        return;
    }
    uint8_t next = b[i + 1], which = b[i] >= 0x80 && b[i] <= 0x83 ? next & 0x38 : b[i] < 0x40 && (b[i] & 7) < 6 ? b[i] & 0x38 : 0;
    if (b[i] == 0x0f) {
        c->wide += (next >= 0x54 && next <= 0x57) || next == 0xdb || next == 0xdf || next == 0xeb || next == 0xef;
    } else if (which == 0x08 || which == 0x20 || which == 0x30) {
        int itself = next >> 6 == 3 && (next >> 3 & 7) == (next & 7) && b[i] < 0x40;
        c->narrow += !itself;
    }
}

static void is_translated(id plugin, struct qemu_plugin_tb *piece)
{
    struct counts *c = calloc(1, sizeof *c);
    (void)plugin;
    if (c == NULL) {
        abort();
    }
    c->instructions = qemu_plugin_tb_n_insns(piece);
    for (size_t i = 0; i < c->instructions; i++) {
        struct qemu_plugin_insn *one = qemu_plugin_tb_get_insn(piece, i);
        count_logical(qemu_plugin_insn_data(one), qemu_plugin_insn_size(one), c);
    }
    qemu_plugin_register_vcpu_tb_exec_cb(piece, runs, NO_REGISTERS, c);
}

static void ends(id plugin, void *unused)
{
    FILE *to = fopen(file, "w");
    (void)plugin;
    (void)unused;
    if (to == NULL) {
        perror(file);
        return;
    }
    fprintf(to, "%llu %llu %llu\n", (unsigned long long)all.instructions, (unsigned long long)all.wide,
        (unsigned long long)all.narrow);
    fclose(to);
}

SEEN_BY_QEMU int qemu_plugin_install(id plugin, const void *info, int argc, char **argv)
{
    (void)info;
    if (argc != 1 || strncmp(argv[0], "to=", 3) != 0 || strlen(argv[0] + 3) >= sizeof file) {
        fprintf(stderr, "count: give it to=FILE\n");
        return -1;
    }
    strcpy(file, argv[0] + 3);
    qemu_plugin_register_vcpu_tb_trans_cb(plugin, is_translated);
    qemu_plugin_register_atexit_cb(plugin, ends, NULL);
    return 0;
}
