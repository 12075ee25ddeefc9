/* A plugin for QEMU 7.2: counts the instructions of the emulated program, in a file that the program can read. */
#define _GNU_SOURCE
#include "count.h"

#include <fcntl.h>
#include <stdint.h>
#include <sys/mman.h>
#include <unistd.h>

/* Debian's qemu-user comes without QEMU's header for plugins, so what is used of it is declared here. */

typedef uint64_t plugin_id;
struct qemu_plugin_tb; /* a block of instructions that are translated at once */
struct qemu_plugin_insn;
enum inline_operation { INLINE_ADD = 0 };

void qemu_plugin_register_vcpu_tb_trans_cb(plugin_id, void (*)(plugin_id, struct qemu_plugin_tb *));
size_t qemu_plugin_tb_n_insns(const struct qemu_plugin_tb *);
struct qemu_plugin_insn *qemu_plugin_tb_get_insn(const struct qemu_plugin_tb *, size_t);
void qemu_plugin_register_vcpu_insn_exec_inline(struct qemu_plugin_insn *, enum inline_operation, void *, uint64_t);

/* What QEMU looks for: the version of those functions, and where to start. */
extern int qemu_plugin_version;
int qemu_plugin_install(plugin_id id, const void *info, int count, char **words);

int qemu_plugin_version = 1;

static uint64_t *instructions;

/* Each instruction adds itself. Were the block to add them all, one that QEMU takes back from its end, as it does where
 * an instruction reaches into the next page, would count twice, and the place of the code would move the numbers. */
static void count_block(plugin_id id, struct qemu_plugin_tb *block)
{
    (void)id;
    for (size_t i = 0; i < qemu_plugin_tb_n_insns(block); i++)
        qemu_plugin_register_vcpu_insn_exec_inline(qemu_plugin_tb_get_insn(block, i), INLINE_ADD, instructions, 1);
}

int qemu_plugin_install(plugin_id id, const void *info, int count, char **words)
{
    (void)info, (void)count, (void)words;
    int file = open(COUNT_FILE, O_RDWR | O_CREAT | O_TRUNC, 0600);
    if (file < 0 || ftruncate(file, COUNT_BYTES) != 0)
        return -1;
    instructions = mmap(NULL, COUNT_BYTES, PROT_READ | PROT_WRITE, MAP_SHARED, file, 0);
    if (instructions == MAP_FAILED)
        return -1;
    qemu_plugin_register_vcpu_tb_trans_cb(id, count_block);
    return 0;
}
