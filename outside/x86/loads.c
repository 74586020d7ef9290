/* A plugin for qemu's user emulation: counts how often a program loads each byte
 * of a range of its memory. The range has LOADS_LENGTH bytes from the address
 * LOADS_FROM on, in hexadecimal, and the result goes to the file that LOADS_OUT
 * names: a byte for each, which stops at 255. Of a load that lies in the range in
 * part, that part counts; a store counts nothing. */
#include "plugin.h"

/* The numbers of qemu's enums: a callback that asks for no registers, on loads and
 * stores. One on loads alone would be told of the stores by qemu 7. */
enum { NO_REGISTERS = 0, LOADS_AND_STORES = 3 };

typedef void on_memory(unsigned cpu, uint32_t about, uint64_t address, void *data);
void qemu_plugin_register_vcpu_mem_cb(struct qemu_plugin_insn *, on_memory *, int flags, int which, void *);
unsigned qemu_plugin_mem_size_shift(uint32_t about);
_Bool qemu_plugin_mem_is_store(uint32_t about);

static uint64_t from, length;
static uint8_t *counts;

static void touched(unsigned cpu, uint32_t about, uint64_t address, void *data) {
    uint64_t size = UINT64_C(1) << qemu_plugin_mem_size_shift(about);
    (void)cpu, (void)data;
    if (qemu_plugin_mem_is_store(about)) return;
    for (uint64_t byte = 0; byte < size; byte++) {
        uint64_t at = address + byte - from; /* of one before the range: wrapped, so behind it */
        if (at < length && counts[at] < UINT8_MAX) counts[at]++;
    }
}

static void translated(plugin_id id, struct qemu_plugin_tb *code) {
    size_t n = qemu_plugin_tb_n_insns(code);
    (void)id;
    for (size_t i = 0; i < n; i++) {
        struct qemu_plugin_insn *insn = qemu_plugin_tb_get_insn(code, i);
        qemu_plugin_register_vcpu_mem_cb(insn, touched, NO_REGISTERS, LOADS_AND_STORES, NULL);
    }
}

static void ended(plugin_id id, void *data) {
    FILE *out = fopen(getenv("LOADS_OUT"), "wb");
    (void)id, (void)data;
    if (!out || fwrite(counts, 1, length, out) != length || fclose(out) != 0) abort();
}

PLUGIN int qemu_plugin_install(plugin_id id, const void *about, int words, char **word) {
    const char *first = getenv("LOADS_FROM"), *bytes = getenv("LOADS_LENGTH");
    (void)about, (void)words, (void)word;
    if (!first || !bytes || !getenv("LOADS_OUT")) return 1;
    from = strtoull(first, NULL, 16);
    length = strtoull(bytes, NULL, 10);
    counts = calloc(length + 1, 1);
    if (!counts) return 1;
    qemu_plugin_register_vcpu_tb_trans_cb(id, translated);
    qemu_plugin_register_atexit_cb(id, ended, NULL);
    return 0;
}
