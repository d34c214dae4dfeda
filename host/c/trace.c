/* A plugin of qemu-user: what the emulated program does between two places, as one number.
 *
 *   gcc -O2 -shared -fPIC -DPLUGIN_VERSION=1 trace.c -o trace.so
 *   qemu-x86_64 -cpu qemu64 -plugin ./trace.so,from=ADDRESS,until=ADDRESS,to=FILE PROGRAM ..
 *
 * Whenever the program has come from the first address, in hexadecimal digits, to the second, a line is written to FILE: a hash
 * of the addresses of all instructions that ran between them and of all places in memory that they read or wrote, in their
 * order, and how many of each there were. Two runs with the same line went the same way, and touched the same places. Debian
 * has no header for the interface, so the part of it that is used is declared here; it is the same in versions 1 and 2.
 */
#include <stddef.h>
#include <stdint.h>
#include <stdio.h>
#include <stdlib.h>
#include <string.h>

typedef uint64_t id;
struct qemu_plugin_tb;
struct qemu_plugin_insn;

enum { NO_REGISTERS = 0, READS_AND_WRITES = 3 };

void qemu_plugin_register_vcpu_tb_trans_cb(id, void (*)(id, struct qemu_plugin_tb *));
void qemu_plugin_register_vcpu_insn_exec_cb(
    struct qemu_plugin_insn *, void (*)(unsigned, void *), int registers, void *);
void qemu_plugin_register_vcpu_mem_cb(
    struct qemu_plugin_insn *, void (*)(unsigned, uint32_t, uint64_t, void *), int registers, int which, void *);
void qemu_plugin_register_atexit_cb(id, void (*)(id, void *), void *);
size_t qemu_plugin_tb_n_insns(const struct qemu_plugin_tb *);
struct qemu_plugin_insn *qemu_plugin_tb_get_insn(const struct qemu_plugin_tb *, size_t);
uint64_t qemu_plugin_insn_vaddr(const struct qemu_plugin_insn *);

#define SEEN_BY_QEMU __attribute__((visibility("default")))

SEEN_BY_QEMU int qemu_plugin_version = PLUGIN_VERSION;

static uint64_t from, until, hash, instructions, accesses;
static int on;
static FILE *to;

static void add(uint64_t what)
{
    hash = (hash ^ what) * 0x9e3779b97f4a7c15;
    hash ^= hash >> 29;
}

static void runs(unsigned cpu, void *address)
{
    uint64_t at = (uintptr_t)address;
    (void)cpu;
    if (at == until && on) {
        fprintf(to, "%016llx %llu %llu\n", (unsigned long long)hash, (unsigned long long)instructions,
            (unsigned long long)accesses);
        on = 0;
    }
    if (at == from) {
        hash = instructions = accesses = 0;
        on = 1;
    }
    if (on) {
        instructions++;
        add(2 * at);
    }
}

/* How many bytes, and whether they are read or written, is the instruction's. */
static void touches(unsigned cpu, uint32_t how, uint64_t address, void *unused)
{
    (void)cpu;
    (void)how;
    (void)unused;
    if (on) {
        accesses++;
        add(2 * address + 1);
    }
}

static void is_translated(id plugin, struct qemu_plugin_tb *piece)
{
    (void)plugin;
    for (size_t i = 0; i < qemu_plugin_tb_n_insns(piece); i++) {
        struct qemu_plugin_insn *insn = qemu_plugin_tb_get_insn(piece, i);
        qemu_plugin_register_vcpu_insn_exec_cb(insn, runs, NO_REGISTERS, (void *)qemu_plugin_insn_vaddr(insn));
        qemu_plugin_register_vcpu_mem_cb(insn, touches, NO_REGISTERS, READS_AND_WRITES, NULL);
    }
}

static void ends(id plugin, void *unused)
{
    (void)plugin;
    (void)unused;
    fclose(to);
}

SEEN_BY_QEMU int qemu_plugin_install(id plugin, const void *info, int argc, char **argv)
{
    (void)info;
    for (int i = 0; i < argc; i++) {
        if (strncmp(argv[i], "from=", 5) == 0) {
            from = strtoull(argv[i] + 5, NULL, 16);
        } else if (strncmp(argv[i], "until=", 6) == 0) {
            until = strtoull(argv[i] + 6, NULL, 16);
        } else if (strncmp(argv[i], "to=", 3) == 0 && to == NULL) {
            to = fopen(argv[i] + 3, "w");
        }
    }
    if (from == 0 || until == 0 || to == NULL) {
        fprintf(stderr, "trace: give it from=ADDRESS, until=ADDRESS and to=FILE\n");
        return -1;
    }
    qemu_plugin_register_vcpu_tb_trans_cb(plugin, is_translated);
    qemu_plugin_register_atexit_cb(plugin, ends, NULL);
    return 0;
}
