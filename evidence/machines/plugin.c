/* A plugin of qemu that follows what runs between two marks: how many instructions, which ones in which order, and which
 * addresses they read and write. Each time it meets the second mark it writes a line with tabs: instructions, a hash of
 * their addresses, and a hash of the addresses that they read and write. It is for RISC-V and ARM.
 * usage: qemu-arm -plugin plugin.so,out=FILE PROGRAM .. */
#include <stddef.h>
#include <stdint.h>
#include <stdio.h>
#include <string.h>

/* Debian's packages have no qemu-plugin.h, so what is used of version 1 of the interface is declared here. */
typedef uint64_t qemu_plugin_id_t;
typedef uint32_t qemu_plugin_meminfo_t;
struct qemu_plugin_tb;
struct qemu_plugin_insn;
enum { NO_REGISTERS = 0, READS_AND_WRITES = 3 };
void qemu_plugin_register_vcpu_tb_trans_cb(qemu_plugin_id_t, void (*)(qemu_plugin_id_t, struct qemu_plugin_tb *));
void qemu_plugin_register_vcpu_insn_exec_cb(struct qemu_plugin_insn *, void (*)(unsigned, void *), int, void *);
void qemu_plugin_register_vcpu_mem_cb(struct qemu_plugin_insn *,
    void (*)(unsigned, qemu_plugin_meminfo_t, uint64_t, void *), int, int, void *);
void qemu_plugin_register_atexit_cb(qemu_plugin_id_t, void (*)(qemu_plugin_id_t, void *), void *);
size_t qemu_plugin_tb_n_insns(const struct qemu_plugin_tb *);
struct qemu_plugin_insn *qemu_plugin_tb_get_insn(const struct qemu_plugin_tb *, size_t);
const void *qemu_plugin_insn_data(const struct qemu_plugin_insn *);
uint64_t qemu_plugin_tb_vaddr(const struct qemu_plugin_tb *);
void qemu_plugin_register_vcpu_tb_exec_cb(struct qemu_plugin_tb *, void (*)(unsigned, void *), int, void *);
uint64_t qemu_plugin_insn_vaddr(const struct qemu_plugin_insn *);
__attribute__((visibility("default"))) int qemu_plugin_version = 1;

/* The marks are hints that no processor knows, so that they do nothing: see enter.S. */
enum { ADDI = 0x13, HINT = (int)0xe320f000, NUMBER = 112 };
static uint32_t begin = HINT | NUMBER, end = HINT | (NUMBER + 1);

static FILE *out;
static uint64_t instructions, order, places;

static uint64_t mixed(uint64_t hash, uint64_t with)
{
    hash = (hash ^ with) * 0x9e3779b97f4a7c15u;
    return hash ^ hash >> 29;
}

/* What runs is followed by blocks of instructions, which run whole: by how many they are, and the address of the first. */
static void executed(unsigned cpu, void *block)
{
    (void)cpu;
    instructions += (uintptr_t)block >> 48;
    order = mixed(order, (uintptr_t)block);
}

static void accessed(unsigned cpu, qemu_plugin_meminfo_t how, uint64_t address, void *at)
{
    (void)cpu, (void)at;
    places = mixed(places, address ^ (uint64_t)how << 48);
}

static void began(unsigned cpu, void *at)
{
    (void)cpu, (void)at;
    instructions = order = places = 0;
}

static void ended(unsigned cpu, void *at)
{
    (void)cpu, (void)at;
    fprintf(out, "%llu\t%016llx\t%016llx\n", (unsigned long long)instructions, (unsigned long long)order,
        (unsigned long long)places);
}

static uint32_t code_of(const struct qemu_plugin_insn *it)
{
    uint32_t code;
    memcpy(&code, qemu_plugin_insn_data(it), sizeof code);
    return code;
}

static void *numbered(size_t count, uint64_t address)
{
    return (void *)((uintptr_t)count << 48 | (uintptr_t)address);
}

/* A block with a mark is followed by its instructions. */
static void translated(qemu_plugin_id_t id, struct qemu_plugin_tb *block)
{
    (void)id;
    size_t count = qemu_plugin_tb_n_insns(block), marks = 0;
    for (size_t i = 0; i < count; i++) {
        uint32_t code = code_of(qemu_plugin_tb_get_insn(block, i));
        marks += code == begin || code == end;
    }
    if (!marks)
        qemu_plugin_register_vcpu_tb_exec_cb(block, executed, NO_REGISTERS, numbered(count, qemu_plugin_tb_vaddr(block)));
    for (size_t i = 0; i < count; i++) {
        struct qemu_plugin_insn *it = qemu_plugin_tb_get_insn(block, i);
        void (*call)(unsigned, void *) = code_of(it) == begin ? began : code_of(it) == end ? ended : executed;
        if (marks)
            qemu_plugin_register_vcpu_insn_exec_cb(it, call, NO_REGISTERS, numbered(1, qemu_plugin_insn_vaddr(it)));
        qemu_plugin_register_vcpu_mem_cb(it, accessed, NO_REGISTERS, READS_AND_WRITES, NULL);
    }
}

static void closed(qemu_plugin_id_t id, void *nothing)
{
    (void)id, (void)nothing;
    fclose(out);
}

/* What is known of the emulator begins with the name of its machine. */
__attribute__((visibility("default"))) int qemu_plugin_install(qemu_plugin_id_t id, const char *const *about, int count,
    char **words)
{
    if (strncmp(*about, "riscv", 5) == 0)
        begin = ADDI | NUMBER << 20, end = ADDI | (NUMBER + 1) << 20;
    if (count != 1 || strncmp(words[0], "out=", 4) || !(out = fopen(words[0] + 4, "w")))
        return 1;
    qemu_plugin_register_vcpu_tb_trans_cb(id, translated);
    qemu_plugin_register_atexit_cb(id, closed, NULL);
    return 0;
}
