/*
 * A plugin for the emulator qemu-user: counts the instructions of the emulated program as they are executed, by symbol. At the end it
 * writes a line for each symbol, its count and its name. What has no symbol is of a shared library, here the C library.
 *
 *     cc -O2 -shared -fPIC count.c -o count.so
 *     qemu-x86_64 -plugin ./count.so,out=FILE PROGRAM
 *
 * Debian has no package with the header of plugins, so what is used of it is declared here. It is version 1, as in qemu 6 to 8.
 */
#define _POSIX_C_SOURCE 200809L
#include <stddef.h>
#include <stdint.h>
#include <stdio.h>
#include <stdlib.h>
#include <string.h>

#define EXPORT __attribute__((visibility("default")))

typedef uint64_t qemu_plugin_id_t;
typedef struct qemu_info_t qemu_info_t;
struct qemu_plugin_tb;
struct qemu_plugin_insn;
enum qemu_plugin_op { QEMU_PLUGIN_INLINE_ADD_U64 };

void qemu_plugin_register_vcpu_tb_trans_cb(qemu_plugin_id_t id, void (*callback)(qemu_plugin_id_t, struct qemu_plugin_tb *));
void qemu_plugin_register_vcpu_insn_exec_inline(struct qemu_plugin_insn *instruction, enum qemu_plugin_op op, void *number, uint64_t step);
void qemu_plugin_register_atexit_cb(qemu_plugin_id_t id, void (*callback)(qemu_plugin_id_t, void *), void *argument);
size_t qemu_plugin_tb_n_insns(const struct qemu_plugin_tb *block);
struct qemu_plugin_insn *qemu_plugin_tb_get_insn(const struct qemu_plugin_tb *block, size_t index);
const char *qemu_plugin_insn_symbol(const struct qemu_plugin_insn *instruction);

EXPORT int qemu_plugin_version = 1;

struct symbol {
    char *name;
    uint64_t count;
    struct symbol *next;
};

enum { BUCKETS = 4096 };
static struct symbol *buckets[BUCKETS];
static const char *out;

static void *must(void *made)
{
    if (!made) {
        perror("count");
        exit(1);
    }
    return made;
}

static struct symbol *symbol_named(const char *name)
{
    uint32_t hash = 5381;
    for (const char *c = name; *c; c++)
        hash = hash * 33 + (unsigned char)*c;
    struct symbol **bucket = &buckets[hash % BUCKETS];
    for (struct symbol *symbol = *bucket; symbol; symbol = symbol->next)
        if (strcmp(symbol->name, name) == 0)
            return symbol;
    struct symbol *symbol = must(calloc(1, sizeof *symbol));
    symbol->name = must(strdup(name));
    symbol->next = *bucket;
    *bucket = symbol;
    return symbol;
}

/* The emulator translates a block once and runs it often: each instruction is told here to add to its symbol's count. */
static void translated(qemu_plugin_id_t id, struct qemu_plugin_tb *block)
{
    (void)id;
    size_t length = qemu_plugin_tb_n_insns(block);
    for (size_t i = 0; i < length; i++) {
        struct qemu_plugin_insn *instruction = qemu_plugin_tb_get_insn(block, i);
        const char *name = qemu_plugin_insn_symbol(instruction);
        struct symbol *symbol = symbol_named(name && *name ? name : "(shared library)");
        qemu_plugin_register_vcpu_insn_exec_inline(instruction, QEMU_PLUGIN_INLINE_ADD_U64, &symbol->count, 1);
    }
}

static void ended(qemu_plugin_id_t id, void *argument)
{
    (void)id;
    (void)argument;
    FILE *file = must(fopen(out, "w"));
    for (size_t i = 0; i < BUCKETS; i++)
        for (struct symbol *symbol = buckets[i]; symbol; symbol = symbol->next)
            fprintf(file, "%llu %s\n", (unsigned long long)symbol->count, symbol->name);
    if (fclose(file) != 0) {
        perror("count");
        exit(1);
    }
}

EXPORT int qemu_plugin_install(qemu_plugin_id_t id, const qemu_info_t *info, int argc, char **argv)
{
    (void)info;
    for (int i = 0; i < argc; i++)
        if (strncmp(argv[i], "out=", 4) == 0)
            out = must(strdup(argv[i] + 4));
    if (!out) {
        fprintf(stderr, "count: out=FILE is missing\n");
        return 1;
    }
    qemu_plugin_register_vcpu_tb_trans_cb(id, translated);
    qemu_plugin_register_atexit_cb(id, ended, NULL);
    return 0;
}
