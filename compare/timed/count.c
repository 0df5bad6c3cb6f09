/* count: a plugin for Debian's qemu-user (7.2) that counts the instructions which a program executes. At each call of getppid, which the
   program makes as a mark and for nothing else, it writes the number so far to the file that the argument out=FILE names, a line each.
   An instruction that repeats itself (the zeros of a long fill are written by one) is one, as it is on a machine, however often it repeats.
   The few declarations are written out here, since no package of that release has the plugins' header. */
#include <stdbool.h>
#include <stdint.h>
#include <stddef.h>
#include <stdio.h>
#include <string.h>

#define API __attribute__((visibility("default")))
#define GETPPID_X86_64 110
#define ADD_U64 0

typedef uint64_t qemu_plugin_id_t;
struct qemu_plugin_tb;
struct qemu_plugin_insn;
typedef void (*tb_cb)(qemu_plugin_id_t, struct qemu_plugin_tb *);
typedef void (*syscall_cb)(qemu_plugin_id_t, unsigned, int64_t, uint64_t, uint64_t, uint64_t, uint64_t, uint64_t, uint64_t, uint64_t, uint64_t);
void qemu_plugin_register_vcpu_tb_trans_cb(qemu_plugin_id_t, tb_cb);
size_t qemu_plugin_tb_n_insns(const struct qemu_plugin_tb *);
struct qemu_plugin_insn *qemu_plugin_tb_get_insn(const struct qemu_plugin_tb *, size_t);
const void *qemu_plugin_insn_data(const struct qemu_plugin_insn *);
size_t qemu_plugin_insn_size(const struct qemu_plugin_insn *);
void qemu_plugin_register_vcpu_tb_exec_inline(struct qemu_plugin_tb *, int op, void *ptr, uint64_t imm);
void qemu_plugin_register_vcpu_syscall_cb(qemu_plugin_id_t, syscall_cb);

API int qemu_plugin_version = 1;

static uint64_t count;
static FILE *out;

/* A string instruction behind a prefix of repetition, and the prefix of 64 bits if there is one. */
static bool repeats(const struct qemu_plugin_insn *insn) {
    const uint8_t *bytes = qemu_plugin_insn_data(insn);
    size_t size = qemu_plugin_insn_size(insn);
    if (size < 2 || (bytes[0] != 0xf2 && bytes[0] != 0xf3)) return false;
    uint8_t code = bytes[size - 1];
    return (size == 2 || (size == 3 && bytes[1] >> 4 == 4)) && code >= 0xa4 && code <= 0xaf && code != 0xa8 && code != 0xa9;
}

/* The emulator comes back to an instruction that repeats itself at each turn, in a block that begins with it. */
static void on_block(qemu_plugin_id_t id, struct qemu_plugin_tb *block) {
    (void)id;
    size_t again = repeats(qemu_plugin_tb_get_insn(block, 0));
    qemu_plugin_register_vcpu_tb_exec_inline(block, ADD_U64, &count, qemu_plugin_tb_n_insns(block) - again);
}

static void on_syscall(qemu_plugin_id_t id, unsigned cpu, int64_t number, uint64_t a, uint64_t b, uint64_t c, uint64_t d, uint64_t e,
                       uint64_t f, uint64_t g, uint64_t h) {
    (void)id, (void)cpu, (void)a, (void)b, (void)c, (void)d, (void)e, (void)f, (void)g, (void)h;
    if (number == GETPPID_X86_64) {
        fprintf(out, "%llu\n", (unsigned long long)count);
        fflush(out);
    }
}

API int qemu_plugin_install(qemu_plugin_id_t id, const void *info, int argc, char **argv) {
    (void)info;
    for (int i = 0; i < argc; i++)
        if (!strncmp(argv[i], "out=", 4)) out = fopen(argv[i] + 4, "w");
    if (!out) return 1;
    qemu_plugin_register_vcpu_tb_trans_cb(id, on_block);
    qemu_plugin_register_vcpu_syscall_cb(id, on_syscall);
    return 0;
}
