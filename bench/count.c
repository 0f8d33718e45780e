/* A plugin for qemu's user mode that counts the guest's instructions and writes their number to standard error at the end.
   The few declarations stand here because Debian packs no header for plugins. */
#include <stdint.h>
#include <stdio.h>

typedef uint64_t plugin_id;
struct tb;
int qemu_plugin_version = 1;
void qemu_plugin_register_vcpu_tb_trans_cb(plugin_id id, void (*call)(plugin_id, struct tb *));
void qemu_plugin_register_vcpu_tb_exec_inline(struct tb *block, int add_u64, void *counter, uint64_t by);
void qemu_plugin_register_atexit_cb(plugin_id id, void (*call)(plugin_id, void *), void *data);
uint64_t qemu_plugin_tb_n_insns(const struct tb *block);

static uint64_t instructions;

static void translated(plugin_id id, struct tb *block) {
    (void)id;
    qemu_plugin_register_vcpu_tb_exec_inline(block, 0, &instructions, qemu_plugin_tb_n_insns(block));
}

static void ended(plugin_id id, void *data) {
    (void)id, (void)data;
    fprintf(stderr, "instructions %lu\n", (unsigned long)instructions);
}

int qemu_plugin_install(plugin_id id, const void *info, int count, char **words) {
    (void)info, (void)count, (void)words;
    qemu_plugin_register_vcpu_tb_trans_cb(id, translated);
    qemu_plugin_register_atexit_cb(id, ended, 0);
    return 0;
}
