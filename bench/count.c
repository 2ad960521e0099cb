/* A plugin for QEMU's user emulator: how many machine instructions a program completes. bench/counted builds it where the processor is another.
     on=FUNCTION, once or more   only the calls of these functions: from their first instruction until bench.c's own code goes on
   A string instruction that repeats counts as often as it repeats, as it does by valgrind. */
#include <inttypes.h>
#include <stdbool.h>
#include <stddef.h>
#include <stdio.h>
#include <string.h>

/* QEMU's interface, version 1, as far as it is used. */
extern int qemu_plugin_version;
extern int qemu_plugin_install(uint64_t id, const void *info, int n, char **words);
void qemu_plugin_register_vcpu_tb_trans_cb(uint64_t id, void (*at_translation)(uint64_t, void *));
void qemu_plugin_register_vcpu_insn_exec_cb(void *instruction, void (*at_execution)(unsigned, void *), int flags, void *data);
void qemu_plugin_register_atexit_cb(uint64_t id, void (*at_exit)(uint64_t, void *), void *data);
size_t qemu_plugin_tb_n_insns(const void *block);
void *qemu_plugin_tb_get_insn(const void *block, size_t k);
const char *qemu_plugin_insn_symbol(const void *instruction);

enum { FUNCTIONS_MOST = 4 };
static const char *counted[FUNCTIONS_MOST];
static size_t functions;
static bool counting;
static uint64_t count;

/* The functions of bench.c from which a door is called, or into which these are inlined. */
static const char *const callers[] = { "call", "call_slices", "one", "main" };

static void any(unsigned cpu, void *data)
{
    (void)cpu, (void)data;
    count += counting;
}

static void inside(unsigned cpu, void *data)
{
    counting = true;
    any(cpu, data);
}

static void outside(unsigned cpu, void *data)
{
    counting = false;
    any(cpu, data);
}

static bool among(const char *const *names, size_t n, const char *name)
{
    for (size_t i = 0; i < n; i++)
        if (!strcmp(names[i], name))
            return true;
    return false;
}

static void translated(uint64_t id, void *block)
{
    (void)id;
    for (size_t k = 0; k < qemu_plugin_tb_n_insns(block); k++) {
        void *instruction = qemu_plugin_tb_get_insn(block, k);
        const char *name = qemu_plugin_insn_symbol(instruction);
        const bool here = functions && name;
        qemu_plugin_register_vcpu_insn_exec_cb(instruction,
                                               here && among(counted, functions, name) ? inside
                                               : here && among(callers, sizeof callers / sizeof *callers, name) ? outside
                                                                                                                : any,
                                               0, NULL);
    }
}

static void ended(uint64_t id, void *data)
{
    (void)id, (void)data;
    fprintf(stderr, "%" PRIu64 "\n", count);
}

int qemu_plugin_version = 1;

int qemu_plugin_install(uint64_t id, const void *info, int n, char **words)
{
    (void)info;
    for (int i = 0; i < n && functions < FUNCTIONS_MOST; i++)
        if (!strncmp(words[i], "on=", 3))
            counted[functions++] = words[i] + 3;
    counting = !functions;
    qemu_plugin_register_vcpu_tb_trans_cb(id, translated);
    qemu_plugin_register_atexit_cb(id, ended, NULL);
    return 0;
}
