/* A plugin for the emulator QEMU that counts the instructions that a program executes: benches/count loads it.
 * The count is the first eight bytes of a file, which the plugin shares with whoever has it open, so the program under the emulator can read it too.
 * Debian has no header for plugins. What is used of it is declared here, as version 1 of the interface has it. */
#include <fcntl.h>
#include <stddef.h>
#include <stdint.h>
#include <string.h>
#include <sys/mman.h>
#include <unistd.h>

struct qemu_plugin_tb;
enum qemu_plugin_op { QEMU_PLUGIN_INLINE_ADD_U64 };
typedef void on_translated(uint64_t id, struct qemu_plugin_tb *block);

void qemu_plugin_register_vcpu_tb_trans_cb(uint64_t id, on_translated *call);
void qemu_plugin_register_vcpu_tb_exec_inline(struct qemu_plugin_tb *block, enum qemu_plugin_op op, void *at, uint64_t number);
size_t qemu_plugin_tb_n_insns(const struct qemu_plugin_tb *block);

extern int qemu_plugin_version;
int qemu_plugin_version = 1;

static uint64_t *count;

/* A block of instructions that was translated is run from its first to its last: only the last can jump. */
static void translated(uint64_t id, struct qemu_plugin_tb *block)
{
    (void)id;
    qemu_plugin_register_vcpu_tb_exec_inline(block, QEMU_PLUGIN_INLINE_ADD_U64, count, qemu_plugin_tb_n_insns(block));
}

/* The one argument is to=FILE. Where it does not give 0, the emulator stops. */
int qemu_plugin_install(uint64_t id, const void *emulator, int argc, char **argv);
int qemu_plugin_install(uint64_t id, const void *emulator, int argc, char **argv)
{
    (void)emulator;
    if (argc != 1 || strncmp(argv[0], "to=", 3) != 0)
        return 1;
    int file = open(argv[0] + 3, O_RDWR);
    if (file < 0 || ftruncate(file, sizeof *count) != 0)
        return 1;
    count = mmap(NULL, sizeof *count, PROT_READ | PROT_WRITE, MAP_SHARED, file, 0);
    if (count == MAP_FAILED)
        return 1;
    qemu_plugin_register_vcpu_tb_trans_cb(id, translated);
    return 0;
}
