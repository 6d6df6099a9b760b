/* A plugin of QEMU: counts what each call of a function measured_.. executes, from its entry to its return, into counted.1, counted.2, ..
   in the order of the calls, in callgrind's form: by function its own instructions and how often it was entered, then the total.

   It runs in the folder that has `functions`: the address that the program's code is linked at, then the lines of nm -S, by address.
   Debian packages no header for plugins, so what is used of it is declared here. */

#include <inttypes.h>
#include <stdio.h>
#include <stdlib.h>
#include <string.h>
#include <unistd.h>

struct qemu_plugin_tb;
struct qemu_plugin_insn;
uint64_t qemu_plugin_start_code(void);
size_t qemu_plugin_tb_n_insns(const struct qemu_plugin_tb *);
struct qemu_plugin_insn *qemu_plugin_tb_get_insn(const struct qemu_plugin_tb *, size_t);
uint64_t qemu_plugin_insn_vaddr(const struct qemu_plugin_insn *);
size_t qemu_plugin_insn_size(const struct qemu_plugin_insn *);
const void *qemu_plugin_insn_data(const struct qemu_plugin_insn *);
void qemu_plugin_register_vcpu_tb_trans_cb(uint64_t, void (*)(uint64_t, struct qemu_plugin_tb *));
void qemu_plugin_register_vcpu_insn_exec_cb(struct qemu_plugin_insn *, void (*)(unsigned, void *), int, void *);
int qemu_plugin_version = 1;

struct function {
    uint64_t entry, size, own, entered;
    char *name;
};

struct instruction {
    uint64_t start, end;
    struct function *function;
    char is_entry, calls_measured;
};

enum { MOST = 100000 };
static struct function functions[MOST + 1]; /* the last is all that `functions` has not */
static size_t known;
static uint64_t linked_at;

static int counting;
static uint64_t returns_to; /* behind the last call of a measured function */
static unsigned dumps;

static void fail(const char *what) {
    fprintf(stderr, "count.c: %s\n", what);
    _exit(1);
}

static struct function *function_at(uint64_t address) {
    size_t low = 0, high = known;

    while (low < high) {
        size_t middle = (low + high) / 2;

        if (address < functions[middle].entry)
            high = middle;
        else
            low = middle + 1;
    }
    if (low > 0 && address - functions[low - 1].entry < functions[low - 1].size)
        return &functions[low - 1];
    return &functions[MOST];
}

static int is_measured(const struct function *function) {
    return strncmp(function->name, "measured_", 9) == 0;
}

static void dump(void) {
    char name[32];
    uint64_t total = 0;
    FILE *out;

    snprintf(name, sizeof name, "counted.%u", ++dumps);
    out = fopen(name, "w");
    if (!out)
        fail("cannot write counted.N to the folder that it runs in");

    fprintf(out, "events: Ir\n");
    for (size_t i = 0; i <= MOST; i++) {
        struct function *f = &functions[i];

        if (f->own > 0)
            fprintf(out, "fn=(%zu) %s\n0 %" PRIu64 "\ncfn=(%zu)\ncalls=%" PRIu64 " 0\n0 0\n", i, f->name, f->own, i, f->entered);
        total += f->own;
        f->own = f->entered = 0;
    }
    fprintf(out, "totals: %" PRIu64 "\n", total);
    if (fclose(out) != 0)
        fail("cannot write counted.N to the folder that it runs in");
}

/* Called before each instruction, and not once for a whole block of QEMU's: a block may end before its last instruction. */
static void executed(unsigned cpu, void *data) {
    const struct instruction *at = data;

    (void)cpu;
    if (counting && at->start == returns_to) {
        dump();
        counting = 0;
        returns_to = 0;
    }
    if (!counting && at->is_entry && is_measured(at->function)) {
        if (returns_to == 0)
            fail("a measured function is entered by something else than a call of its name, so where it returns to is not known");
        counting = 1;
    }
    if (counting) {
        at->function->own += 1;
        at->function->entered += at->is_entry;
    } else if (at->calls_measured) {
        returns_to = at->end;
    }
}

/* Of the call's bytes: e8 and the distance, after 67 where the linker made it of a longer call. */
static int calls_measured(const unsigned char *bytes, size_t size, uint64_t end, uint64_t moved) {
    int32_t distance;
    uint64_t target;
    const struct function *called;

    if (size == 6 && bytes[0] == 0x67)
        bytes++;
    else if (size != 5)
        return 0;
    if (bytes[0] != 0xe8)
        return 0;
    distance = (int32_t)(bytes[1] | bytes[2] << 8 | bytes[3] << 16 | (uint32_t)bytes[4] << 24);
    target = end + (uint64_t)(int64_t)distance - moved;
    called = function_at(target);
    return target == called->entry && is_measured(called);
}

static void translated(uint64_t id, struct qemu_plugin_tb *tb) {
    size_t count = qemu_plugin_tb_n_insns(tb);
    uint64_t moved = qemu_plugin_start_code() - linked_at;
    struct instruction *at = malloc(count * sizeof *at);

    (void)id;
    if (!at)
        fail("no memory");
    for (size_t i = 0; i < count; i++, at++) {
        struct qemu_plugin_insn *insn = qemu_plugin_tb_get_insn(tb, i);
        size_t size = qemu_plugin_insn_size(insn);

        at->start = qemu_plugin_insn_vaddr(insn);
        at->end = at->start + size;
        at->function = function_at(at->start - moved);
        at->is_entry = at->start - moved == at->function->entry;
        at->calls_measured = calls_measured(qemu_plugin_insn_data(insn), size, at->end, moved);
        qemu_plugin_register_vcpu_insn_exec_cb(insn, executed, 0, at);
    }
}

static void read_functions(void) {
    FILE *in = fopen("functions", "r");
    char line[8192], letter;
    int name;

    if (!in || fscanf(in, "%" SCNx64 "\n", &linked_at) != 1)
        fail("no `functions` in the folder that it runs in");
    while (fgets(line, sizeof line, in)) {
        struct function *f = &functions[known];

        if (sscanf(line, "%" SCNx64 " %" SCNx64 " %c %n", &f->entry, &f->size, &letter, &name) != 3)
            continue;
        line[strcspn(line, "\n")] = 0;
        f->name = strdup(line + name);
        if (!f->name || ++known == MOST)
            fail("too many functions");
    }
    fclose(in);
    functions[known].entry = functions[known].size = 0;
    functions[MOST].name = "outside the program";
}

int qemu_plugin_install(uint64_t id, const void *info, int argc, char **argv) {
    (void)info, (void)argc, (void)argv;
    read_functions();
    qemu_plugin_register_vcpu_tb_trans_cb(id, translated);
    return 0;
}
