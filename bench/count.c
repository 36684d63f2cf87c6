/* A plugin of qemu's user emulator that counts what the guest executes.

   The guest calls getppid to open a part and again to close it; on closing,
   the number of guest instructions in between goes, as one line, into the
   file named by the plugin's argument out=FILE, so that the guest itself
   can read it there. The emulator's package ships no header; these are the
   calls we use of its plugin interface. An emulator of version 9 or later
   wants PLUGIN_INTERFACE 2. */
#include <stddef.h>
#include <stdint.h>
#include <stdio.h>
#include <string.h>

#ifndef PLUGIN_INTERFACE
#define PLUGIN_INTERFACE 1
#endif

typedef uint64_t plugin_id;
struct qemu_plugin_tb;
enum registers { NO_REGISTERS };

typedef void (*on_block)(plugin_id, struct qemu_plugin_tb *);
typedef void (*on_entry)(unsigned vcpu, void *instructions);
typedef void (*on_call)(plugin_id, unsigned vcpu, int64_t number, uint64_t, uint64_t, uint64_t,
                        uint64_t, uint64_t, uint64_t, uint64_t, uint64_t);
typedef void (*on_end)(plugin_id, void *);

void qemu_plugin_register_vcpu_tb_trans_cb(plugin_id, on_block);
size_t qemu_plugin_tb_n_insns(const struct qemu_plugin_tb *);
void qemu_plugin_register_vcpu_tb_exec_cb(struct qemu_plugin_tb *, on_entry, enum registers, void *);
void qemu_plugin_register_vcpu_syscall_cb(plugin_id, on_call);
void qemu_plugin_register_atexit_cb(plugin_id, on_end, void *);

#define VISIBLE __attribute__((visibility("default")))
VISIBLE extern int qemu_plugin_version;
VISIBLE int qemu_plugin_version = PLUGIN_INTERFACE;
VISIBLE int qemu_plugin_install(plugin_id, const void *, int, char **);

enum { GETPPID = 110 };               /* its number on x86-64, the guest's */

static uint64_t executed, opened_at;
static int open_part;
static FILE *out;

/* A block is entered: all its instructions are about to be executed. */
static void entered(unsigned vcpu, void *instructions)
{
    (void)vcpu;
    executed += (uintptr_t)instructions;
}

/* A block is translated, once: remember its length for each entry. */
static void translated(plugin_id id, struct qemu_plugin_tb *block)
{
    (void)id;
    qemu_plugin_register_vcpu_tb_exec_cb(block, entered, NO_REGISTERS,
                                         (void *)(uintptr_t)qemu_plugin_tb_n_insns(block));
}

/* A marker opens a part or closes it. */
static void called(plugin_id id, unsigned vcpu, int64_t number, uint64_t a, uint64_t b, uint64_t c,
                   uint64_t d, uint64_t e, uint64_t f, uint64_t g, uint64_t h)
{
    (void)id, (void)vcpu, (void)a, (void)b, (void)c, (void)d, (void)e, (void)f, (void)g, (void)h;
    if (number != GETPPID)
        return;
    if (open_part) {
        fprintf(out, "%llu\n", (unsigned long long)(executed - opened_at));
        fflush(out);
    }
    open_part = !open_part;
    opened_at = executed;
}

static void ended(plugin_id id, void *nothing)
{
    (void)id, (void)nothing;
    fclose(out);
}

int qemu_plugin_install(plugin_id id, const void *machine, int count, char **arguments)
{
    (void)machine;
    for (int i = 0; i < count; i++)
        if (strncmp(arguments[i], "out=", 4) == 0)
            out = fopen(arguments[i] + 4, "w");
    if (out == NULL)
        return -1;
    qemu_plugin_register_vcpu_tb_trans_cb(id, translated);
    qemu_plugin_register_vcpu_syscall_cb(id, called);
    qemu_plugin_register_atexit_cb(id, ended, NULL);
    return 0;
}
