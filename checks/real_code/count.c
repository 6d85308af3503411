/* A plugin of qemu-user that counts the instructions that are executed: gcc -shared -fPIC count.c -o count.so; qemu-aarch64 -plugin
 * ./count.so PROGRAM. The declarations are those of qemu-plugin.h, version 1. */
#include <stddef.h>
#include <stdint.h>
#include <stdio.h>

typedef uint64_t plugin;
struct block;
__attribute__((visibility("default"))) int qemu_plugin_version = 1;
void qemu_plugin_register_vcpu_tb_trans_cb(plugin, void (*)(plugin, struct block *));
size_t qemu_plugin_tb_n_insns(const struct block *);
void qemu_plugin_register_vcpu_tb_exec_inline(struct block *, int, void *, uint64_t);
void qemu_plugin_register_atexit_cb(plugin, void (*)(plugin, void *), void *);

static uint64_t count;

static void translated(plugin it, struct block *block) {
    (void)it;
    qemu_plugin_register_vcpu_tb_exec_inline(block, 0, &count, qemu_plugin_tb_n_insns(block));
}

static void ended(plugin it, void *given) {
    (void)it, (void)given;
    fprintf(stderr, "instructions %llu\n", (unsigned long long)count);
}

__attribute__((visibility("default"))) int qemu_plugin_install(plugin it, const void *info, int words, char **given) {
    (void)info, (void)words, (void)given;
    qemu_plugin_register_vcpu_tb_trans_cb(it, translated);
    qemu_plugin_register_atexit_cb(it, ended, 0);
    return 0;
}
