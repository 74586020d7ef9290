/* What the plugins for qemu's user emulation use of it, each of them one source
 * file. Debian has no header for plugins, so the few calls used are declared
 * here, and beside the one plugin that alone uses them.
 * VERSION is 1 for qemu 6 to 8 and 2 from qemu 9 on; these calls are in both. */
#ifndef X86_PLUGIN_H
#define X86_PLUGIN_H

#include <stddef.h>
#include <stdint.h>
#include <stdio.h>
#include <stdlib.h>
#include <string.h>

#define PLUGIN __attribute__((visibility("default")))

typedef uint64_t plugin_id;
struct qemu_plugin_tb;
struct qemu_plugin_insn;

size_t qemu_plugin_tb_n_insns(const struct qemu_plugin_tb *block);
struct qemu_plugin_insn *qemu_plugin_tb_get_insn(const struct qemu_plugin_tb *block, size_t at);
void qemu_plugin_register_vcpu_tb_trans_cb(plugin_id, void (*)(plugin_id, struct qemu_plugin_tb *));
void qemu_plugin_register_atexit_cb(plugin_id, void (*)(plugin_id, void *), void *);

PLUGIN int qemu_plugin_version = VERSION;

#endif
