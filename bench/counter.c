/* Counts the instructions of a program that Debian's emulator runs:
 *     qemu-x86_64 -plugin counter.so PROGRAM
 * At its end it says how many there were, in the words of valgrind's callgrind. Of the emulator's interface, which has no header of its
 * own in Debian, five functions are declared here; they are the same in all its versions. */
#include <inttypes.h>
#include <stddef.h>
#include <stdint.h>
#include <stdio.h>

struct qemu_plugin_tb;
void qemu_plugin_register_vcpu_tb_trans_cb(uint64_t id, void (*call)(uint64_t, struct qemu_plugin_tb *));
void qemu_plugin_register_vcpu_tb_exec_cb(struct qemu_plugin_tb *block, void (*call)(unsigned, void *), int flags, void *with);
void qemu_plugin_register_atexit_cb(uint64_t id, void (*call)(uint64_t, void *), void *with);
size_t qemu_plugin_tb_n_insns(const struct qemu_plugin_tb *block);

int qemu_plugin_version = 1;

static uint64_t total;

static void executed(unsigned processor, void *length)
{
    (void)processor;
    total += (uintptr_t)length;
}

static void translated(uint64_t id, struct qemu_plugin_tb *block)
{
    (void)id;
    qemu_plugin_register_vcpu_tb_exec_cb(block, executed, 0, (void *)(uintptr_t)qemu_plugin_tb_n_insns(block));
}

static void ended(uint64_t id, void *with)
{
    (void)id;
    (void)with;
    fprintf(stderr, "Collected : %" PRIu64 "\n", total);
}

int qemu_plugin_install(uint64_t id, const void *information, int count, char **arguments)
{
    (void)information;
    (void)count;
    (void)arguments;
    qemu_plugin_register_vcpu_tb_trans_cb(id, translated);
    qemu_plugin_register_atexit_cb(id, ended, NULL);
    return 0;
}
