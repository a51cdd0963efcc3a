/* A plugin of qemu-x86_64 (its interface 1) that counts instructions: at each `rdtsc`, with which the bench begins and ends a call, it writes the count so far
   to the file MARKS, eight bytes. Written without qemu's header, which Debian does not package. */
#include <stdint.h>
#include <stdio.h>
#include <stdlib.h>

#define EXPORT __attribute__((visibility("default")))

typedef uint64_t plugin_id;
struct qemu_plugin_tb;
struct qemu_plugin_insn;

void qemu_plugin_register_vcpu_tb_trans_cb(plugin_id, void (*)(plugin_id, struct qemu_plugin_tb *));
size_t qemu_plugin_tb_n_insns(const struct qemu_plugin_tb *);
struct qemu_plugin_insn *qemu_plugin_tb_get_insn(const struct qemu_plugin_tb *, size_t);
const void *qemu_plugin_insn_data(const struct qemu_plugin_insn *);
size_t qemu_plugin_insn_size(const struct qemu_plugin_insn *);
void qemu_plugin_register_vcpu_insn_exec_inline(struct qemu_plugin_insn *, int add, void *, uint64_t);
void qemu_plugin_register_vcpu_insn_exec_cb(struct qemu_plugin_insn *, void (*)(unsigned, void *), int registers, void *);
void qemu_plugin_register_atexit_cb(plugin_id, void (*)(plugin_id, void *), void *);

EXPORT int qemu_plugin_version = 1;

static uint64_t count;
static FILE *marks;

static void mark(unsigned vcpu, void *data) {
    fwrite(&count, sizeof count, 1, marks);
}

static void translated(plugin_id id, struct qemu_plugin_tb *block) {
    size_t n = qemu_plugin_tb_n_insns(block);
    for (size_t i = 0; i < n; i++) {
        struct qemu_plugin_insn *one = qemu_plugin_tb_get_insn(block, i);
        const unsigned char *code = qemu_plugin_insn_data(one);
        qemu_plugin_register_vcpu_insn_exec_inline(one, 0, &count, 1);
        if (qemu_plugin_insn_size(one) == 2 && code[0] == 0x0f && code[1] == 0x31) {
            qemu_plugin_register_vcpu_insn_exec_cb(one, mark, 0, NULL);
        }
    }
}

static void ended(plugin_id id, void *data) {
    fclose(marks);
}

EXPORT int qemu_plugin_install(plugin_id id, const void *info, int argc, char **argv) {
    const char *file = getenv("MARKS");
    marks = file ? fopen(file, "wb") : NULL;
    if (!marks) {
        fprintf(stderr, "count.c: MARKS is no file that can be written\n");
        return 1;
    }
    qemu_plugin_register_vcpu_tb_trans_cb(id, translated);
    qemu_plugin_register_atexit_cb(id, ended, NULL);
    return 0;
}
