/* A plugin for qemu's user emulation: counts the instructions that a program
 * executes, in all and by the function that each block starts in. The result
 * goes to the file that COUNT_OUT names. */
#include "plugin.h"

const char *qemu_plugin_insn_symbol(const struct qemu_plugin_insn *insn);
void qemu_plugin_register_vcpu_tb_exec_cb(struct qemu_plugin_tb *, void (*)(unsigned, void *), int flags, void *);

struct function {
    struct function *next;
    uint64_t executed;
    char name[];
};

struct block {
    struct function *in;
    uint64_t size;
};

static struct function *functions;

static struct function *function(const char *name) {
    if (!name) name = "(no name)";
    for (struct function *f = functions; f; f = f->next)
        if (strcmp(f->name, name) == 0) return f;
    struct function *f = calloc(1, sizeof *f + strlen(name) + 1);
    if (!f) abort();
    strcpy(f->name, name);
    f->next = functions;
    return functions = f;
}

static void executed(unsigned cpu, void *data) {
    const struct block *block = data;
    (void)cpu;
    block->in->executed += block->size;
}

static void translated(plugin_id id, struct qemu_plugin_tb *code) {
    struct block *block = malloc(sizeof *block);
    (void)id;
    if (!block) abort();
    block->size = qemu_plugin_tb_n_insns(code);
    block->in = function(qemu_plugin_insn_symbol(qemu_plugin_tb_get_insn(code, 0)));
    qemu_plugin_register_vcpu_tb_exec_cb(code, executed, 0, block);
}

static void ended(plugin_id id, void *data) {
    const char *path = getenv("COUNT_OUT");
    FILE *out = path ? fopen(path, "w") : stderr;
    uint64_t all = 0;
    (void)id, (void)data;
    if (!out) abort();
    for (struct function *f = functions; f; f = f->next) all += f->executed;
    fprintf(out, "%llu all\n", (unsigned long long)all);
    for (struct function *f = functions; f; f = f->next)
        if (f->executed) fprintf(out, "%llu %s\n", (unsigned long long)f->executed, f->name);
    fclose(out);
}

PLUGIN int qemu_plugin_install(plugin_id id, const void *about, int words, char **word) {
    (void)about, (void)words, (void)word;
    qemu_plugin_register_vcpu_tb_trans_cb(id, translated);
    qemu_plugin_register_atexit_cb(id, ended, NULL);
    return 0;
}
