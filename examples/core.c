/* Prints the stack of each thread of a program that stopped, from its core file:
 *
 *     core [--time] PROGRAM CORE
 *
 *     thread 27402
 *     #0 0x55867c039070 crash+0x1070
 *     #1 0x7f246cd2f128 libcrash.so+0x1128
 *     ..
 *     #9 0x7f246cb6824a libc.so.6+0x2724a
 *     the walk ends: the file has no .debug_frame
 *
 * PROGRAM is the file that ran. CORE is what the kernel, gdb's generate-core-file or qemu-user wrote of it, on x86-64 or AArch64. Behind
 * the address of a frame stands the file that was mapped there, and the address in that file: `addr2line -f -e FILE` names a line for it,
 * of each frame but #0 for the address less one. With --time standard error says how long it took.
 *
 * examples/core_file.c reads the files. Here the index of each .debug_frame is made, once, and stacks are walked. The memory of the core
 * file is lent to the library whole, as windows over its bytes; the few bytes that a frame wants beside it are fetched from the file that
 * was mapped there. */
#define _POSIX_C_SOURCE 200809L
#include <inttypes.h>
#include <stdio.h>
#include <stdlib.h>
#include <string.h>
#include <time.h>

#include "core_file.h"

enum {
    /* The most registers of a frame, and frames of a stack. */
    REGISTERS = 512,
    FRAMES = 1 << 20,
    /* How many steps each expression may take. */
    STEPS = 10000
};

/* What the ABI of a processor says: the DWARF numbers of the stack pointer and of the program counter; the register that has the return
   address when a function is entered, or -1 where the stack has it; and where the `count` registers from number 0 on stand among the words
   of pr_reg. */
struct processor {
    uint16_t machine, stack_pointer, pc;
    int16_t link;
    uint16_t count;
    uint8_t words[33];
};

static const struct processor PROCESSORS[] = {
    /* System V ABI for AMD64, 3.6.2: rax, rdx, rcx, rbx, rsi, rdi, rbp, rsp, r8 to r15, rip. */
    {EM_X86_64, 7, 16, -1, 17, {10, 12, 11, 5, 13, 14, 4, 19, 9, 8, 7, 6, 3, 2, 1, 0, 16}},
    /* DWARF for the Arm 64-bit Architecture, 4.1: x0 to x30, sp, pc. */
    {EM_AARCH64, 31, 32, 30, 33, {0, 1, 2, 3, 4, 5, 6, 7, 8, 9, 10, 11, 12, 13, 14, 15, 16, 17, 18, 19, 20, 21, 22, 23, 24, 25, 26, 27, 28,
        29, 30, 31, 32}},
};

/* A frame: its pc, the address that is looked up for it, and the CFA of the frame that it has called; of the innermost one that is 0. */
struct frame {
    uint64_t pc, looked_up, callee_cfa;
    dwframe_register registers[REGISTERS];
    size_t count;
};

struct stack {
    uint64_t pcs[FRAMES];
    size_t count;
    /* Why it has no more frames. */
    const char *end;
};

static struct core core;
static const struct processor *processor;

/* ---- the calls of the library */

static void make_index(struct module *module)
{
    char name[DWFRAME_NAME_SIZE] = "";
    dwframe_refusal refusal;
    module->section = dwframe_section_of(module->table.at, module->table.len, 8, DWFRAME_LITTLE);
    dwframe_status status = dwframe_index_size(&module->section, &module->entries, &refusal);
    if (status == DWFRAME_OK) {
        /* No pointer is null, also where there are no entries. */
        module->index = allocated(malloc((module->entries + 1) * sizeof *module->index));
        status = dwframe_index(&module->section, module->index, module->entries, &module->entries, &refusal);
    }
    if (status == DWFRAME_OUT_OF_MEMORY)
        fail(5, "out of memory");
    if (status == DWFRAME_REFUSED) {
        dwframe_refusal_name(refusal.code, name, sizeof name);
        snprintf(module->lacks, sizeof module->lacks, "the file's .debug_frame is refused: %s at 0x%zx", name, refusal.at);
    }
}

/* The caller's frame, with its registers in `out`. A section has the addresses of its file, and so has what DW_OP_addr pushes. What was
   fetched is not wanted again, so this ends. */
static dwframe_status unwind(const struct module *module, const struct frame *frame, dwframe_frame *caller, dwframe_register *out)
{
    dwframe_stop stop = {.pc = frame->looked_up - module->bias, .steps = STEPS, .unset = DWFRAME_UNSET_UNCHANGED};
    dwframe_refusal refusal;
    dwframe_fault fault;
    dwframe_status status;
    int wants_memory;
    do {
        dwframe_machine machine = dwframe_machine_of(
            frame->registers, frame->count, core.windows, core.window_count, core.memory, core.memory_len);
        status = dwframe_unwind_at(
            &module->section, module->index, module->entries, &stop, &machine, out, REGISTERS, caller, &refusal, &fault);
        wants_memory = status == DWFRAME_UNREADABLE || (status == DWFRAME_NO_VALUE && fault.kind == DWFRAME_FAULT_UNREADABLE);
    } while (wants_memory && fetch(&core, fault.address, fault.len));
    return status;
}

static const char *why(dwframe_status status)
{
    switch (status) {
    case DWFRAME_NO_FDE:
        return "no entry of the file's .debug_frame covers the address";
    case DWFRAME_NO_VALUE:
        return "an expression has no value";
    case DWFRAME_UNREADABLE:
        return "a register is saved in memory that the core file does not have";
    case DWFRAME_NO_REGISTER:
        return "a register is needed that is not known";
    case DWFRAME_TOO_SHORT:
        return "there are too many registers";
    case DWFRAME_OUT_OF_MEMORY:
        return "out of memory";
    default:
        return "the file's .debug_frame is refused";
    }
}

/* ---- a walk */

/* A register of a frame, where its value is known. */
static const dwframe_register *find_register(const struct frame *frame, uint16_t number)
{
    for (size_t i = 0; i < frame->count; i++) {
        if (frame->registers[i].number == number && frame->registers[i].known)
            return &frame->registers[i];
    }
    return NULL;
}

static void set_register(struct frame *frame, uint16_t number, uint64_t value)
{
    for (size_t i = 0; i < frame->count; i++) {
        if (frame->registers[i].number == number)
            frame->registers[i] = (dwframe_register){.number = number, .known = 1, .value = value};
    }
}

/* The frame where a thread stopped. */
static void enter_thread(const struct thread *thread, struct frame *frame)
{
    frame->count = processor->count;
    for (uint16_t number = 0; number < frame->count; number++) {
        uint64_t value = 0;
        int known = copy(thread->registers, processor->words[number] * sizeof value, &value, sizeof value);
        frame->registers[number] = (dwframe_register){.number = number, .known = (uint16_t)known, .value = value};
    }
    frame->pc = frame->looked_up = frame->registers[processor->pc].value;
    frame->callee_cfa = 0;
    put_first(&core, frame->registers[processor->stack_pointer].value);
}

/* Makes a frame, which has the registers of its caller already, the caller's. The ABI says the rest: the stack pointer is the CFA, and the
   pc is the return address, without the bits that sign it (PAC), and 0 where nobody has called. The address that is looked up is one less, and
   so in the call: a call that never returns may be the last instruction of its function. Of the innermost frame it is the pc itself, and so it
   is of a frame that a signal has interrupted. That one is never reached here: what the handler returns to is a trampoline of the C library or
   of the kernel, and these have no .debug_frame. */
static const char *enter_caller(struct frame *frame, uint64_t cfa, uint16_t return_register)
{
    const dwframe_register *found = find_register(frame, return_register);
    if (!found)
        return "the return address has no value";
    uint64_t pc = found->value & ~core.signature;
    if (pc == 0)
        return "the return address is 0";
    if (cfa <= frame->callee_cfa)
        return "the frame does not stand above the one before";
    set_register(frame, processor->stack_pointer, cfa);
    set_register(frame, processor->pc, pc);
    frame->pc = pc;
    frame->looked_up = pc - 1;
    frame->callee_cfa = cfa;
    return NULL;
}

/* A call of an address where there is no memory, as of 0, has done no more than to keep its return address. */
static const char *leave_nowhere(struct frame *frame)
{
    uint64_t address, sp = frame->registers[processor->stack_pointer].value;
    if (frame->callee_cfa || was_mapped(&core, frame->pc))
        return "no file was mapped there";
    if (processor->link >= 0)
        return enter_caller(frame, sp, (uint32_t)processor->link);
    if (!copy(memory_at(&core, sp, sizeof address), 0, &address, sizeof address))
        return "no file was mapped there";
    set_register(frame, processor->pc, address);
    return enter_caller(frame, sp + sizeof address, processor->pc);
}

/* Goes from a frame to its caller's. Answers NULL, or why there is none. */
static const char *go_up(struct frame *frame)
{
    static dwframe_register registers[REGISTERS];
    dwframe_frame caller;
    const struct module *module = module_at(&core, frame->looked_up);
    if (!module)
        return leave_nowhere(frame);
    if (*module->lacks)
        return module->lacks;
    dwframe_status status = unwind(module, frame, &caller, registers);
    if (status != DWFRAME_OK)
        return why(status);
    memcpy(frame->registers, registers, caller.count * sizeof *registers);
    frame->count = caller.count;
    return enter_caller(frame, caller.cfa, caller.return_register);
}

static void walk(const struct thread *thread, struct stack *stack)
{
    static struct frame frame;
    enter_thread(thread, &frame);
    stack->count = 0;
    do {
        stack->pcs[stack->count++] = frame.pc;
        stack->end = stack->count == FRAMES ? "there are too many frames" : go_up(&frame);
    } while (!stack->end);
}

/* ---- what is printed */

/* The last part of a path, without what a terminal would obey. */
static void print_name(const char *path)
{
    const char *slash = strrchr(path, '/');
    for (const char *letter = slash ? slash + 1 : path; *letter; letter++)
        putchar(*letter > ' ' && *letter <= '~' ? *letter : '?');
}

static void print_stack(const struct thread *thread, const struct stack *stack)
{
    printf("thread %" PRId32 "\n", thread->id);
    for (size_t i = 0; i < stack->count; i++) {
        uint64_t pc = stack->pcs[i];
        const struct module *module = module_at(&core, i ? pc - 1 : pc);
        printf("#%zu 0x%" PRIx64, i, pc);
        if (module) {
            putchar(' ');
            print_name(module->path);
            printf("+0x%" PRIx64, pc - module->bias);
        }
        putchar('\n');
    }
    printf("the walk ends: %s\n", stack->end);
}

static double milliseconds(void)
{
    struct timespec now;
    clock_gettime(CLOCK_MONOTONIC, &now);
    return (double)now.tv_sec * 1e3 + (double)now.tv_nsec / 1e6;
}

static const struct processor *find_processor(uint16_t machine)
{
    for (size_t i = 0; i < sizeof PROCESSORS / sizeof *PROCESSORS; i++) {
        if (PROCESSORS[i].machine == machine)
            return &PROCESSORS[i];
    }
    fail(2, "the core file is of a processor other than x86-64 and AArch64");
}

int main(int argc, char **argv)
{
    static struct stack stack;
    size_t frames = 0;
    int is_timed = argc > 1 && strcmp(argv[1], "--time") == 0;
    if (argc != 3 + is_timed)
        fail(3, "usage: core [--time] PROGRAM CORE");
    double begun = milliseconds(), walking = 0;
    read_core(&core, argv[1 + is_timed], argv[2 + is_timed]);
    processor = find_processor(core.elf.header.e_machine);
    double read = milliseconds();
    for (size_t i = 0; i < core.module_count; i++) {
        if (!*core.modules[i].lacks)
            make_index(&core.modules[i]);
    }
    double indexed = milliseconds();
    for (size_t i = 0; i < core.thread_count; i++) {
        double before = milliseconds();
        walk(&core.threads[i], &stack);
        walking += milliseconds() - before;
        frames += stack.count;
        print_stack(&core.threads[i], &stack);
    }
    if (is_timed)
        fprintf(stderr, "files %.3f ms, indexes %.3f ms, %zu frames %.3f ms\n", read - begun, indexed - read, frames, walking);
    release_core(&core);
    return 0;
}
