/* For the emulator, as callgrind's --toggle-collect: counts the instructions that are executed from the entry of a function up to its return,
   what it calls among them, each time that it is entered. ./count compiles it. Declared here is what it uses of the emulator's plugin
   interface (version 1), as Debian has no package with the header. */
#include <inttypes.h>
#include <stdio.h>
#include <stdlib.h>
#include <string.h>

typedef uint64_t plugin_id;
struct block;
struct insn;
typedef void (*on_block)(plugin_id, struct block *);
typedef void (*on_run)(unsigned cpu, void *data);
typedef void (*on_end)(plugin_id, void *data);
enum inline_op { ADD_U64 };
extern void qemu_plugin_register_vcpu_tb_trans_cb(plugin_id, on_block);
extern void qemu_plugin_register_vcpu_tb_exec_cb(struct block *, on_run, int flags, void *data);
extern void qemu_plugin_register_atexit_cb(plugin_id, on_end, void *data);
extern void qemu_plugin_register_vcpu_insn_exec_inline(struct insn *, enum inline_op, void *sum, uint64_t);
extern size_t qemu_plugin_tb_n_insns(const struct block *);
extern struct insn *qemu_plugin_tb_get_insn(const struct block *, size_t);
extern const void *qemu_plugin_insn_data(const struct insn *);
extern size_t qemu_plugin_insn_size(const struct insn *);
extern const char *qemu_plugin_insn_symbol(const struct insn *);

int qemu_plugin_version = 1;

static const char *function = "";
static uint64_t collected;
/* The instructions executed since the program's start, and those before the piece that runs now. */
static uint64_t executed, before;
/* 0 outside the function, else 1 and the calls under way below it. */
static uint64_t depth;

/* A straight piece of code: its instructions, whether it lies in the function, and whether it ends in a call (1) or a return (-1). */
struct piece {
    size_t length;
    int inside;
    int step;
};

/* The piece that runs now, or none. */
static const struct piece *now;

static int step_of(const struct insn *insn) {
    const unsigned char *code = qemu_plugin_insn_data(insn);
    size_t length = qemu_plugin_insn_size(insn);
    size_t at = 0;
    /* prefixes: bnd and notrack, address and operand size, REX */
    while (at + 1 < length && (memchr("\xf2\xf3\x3e\x66\x67", code[at], 5) || (code[at] & 0xf0) == 0x40)) at++;
    if (code[at] == 0xe8 || (code[at] == 0xff && at + 1 < length && (code[at + 1] >> 3 & 7) == 2)) return 1;
    return code[at] == 0xc3 || code[at] == 0xc2 ? -1 : 0;
}

/* The piece that ran is over. The emulator ends a piece before an instruction that goes on in the next page, and lists that instruction
   both there and at the start of the next piece: so instructions are counted as they are executed, and a piece that executed fewer than it
   lists did not come to the call or the return at its end. */
static void leave(void) {
    uint64_t ran = executed - before;
    before = executed;
    if (!now || depth == 0) return;
    collected += ran;
    if (ran == now->length) depth += now->step;
}

static void run(unsigned cpu, void *data) {
    (void)cpu;
    leave();
    now = data;
    if (depth == 0 && now->inside) depth = 1;
}

static void translated(plugin_id id, struct block *block) {
    size_t length = qemu_plugin_tb_n_insns(block);
    const char *symbol = qemu_plugin_insn_symbol(qemu_plugin_tb_get_insn(block, 0));
    struct piece *piece = malloc(sizeof *piece);
    (void)id;
    if (!piece) abort();
    piece->length = length;
    piece->inside = symbol && strcmp(symbol, function) == 0;
    piece->step = step_of(qemu_plugin_tb_get_insn(block, length - 1));
    qemu_plugin_register_vcpu_tb_exec_cb(block, run, 0, piece);
    for (size_t i = 0; i < length; i++)
        qemu_plugin_register_vcpu_insn_exec_inline(qemu_plugin_tb_get_insn(block, i), ADD_U64, &executed, 1);
}

static void ended(plugin_id id, void *data) {
    (void)id, (void)data;
    leave();
    fprintf(stderr, "Collected : %" PRIu64 "\n", collected);
}

int qemu_plugin_install(plugin_id id, const void *machine, int words, char **word) {
    (void)machine;
    if (words != 1 || strncmp(word[0], "function=", 9) != 0) return 1;
    function = strdup(word[0] + 9);
    qemu_plugin_register_vcpu_tb_trans_cb(id, translated);
    qemu_plugin_register_atexit_cb(id, ended, NULL);
    return 0;
}
