/* Unwinds a machine that stopped, by the library for C:
 *
 *     frames 4|8 little|big FILE DUMP      prints the caller's frame, as `dwframe unwind --default same`
 *     frames 4|8 little|big FILE DUMP N    walks the stack, whose pointer is register N, as examples/backtrace.py
 *
 * FILE is a raw .debug_frame and DUMP a register dump, as examples/chain.c writes it.
 *
 * The walk makes the index of the section once, and reads memory as it is wanted: it gives all registers and no memory, and where a
 * frame wants bytes that are missing, fetches them, here from the dump, and makes the call again. A debugger's `fetch` reads them from
 * the process that it stopped. Registers are given at the start, since one that no rule asks for is passed on and not wanted. */
#include <inttypes.h>
#include <stdio.h>
#include <stdlib.h>
#include <string.h>

#include "dwframe.h"

/* The room for the registers of a frame, for windows and for the bytes of memory. */
enum { REGISTERS = 512, WINDOWS = 65536, MEMORY = 1 << 20 };

struct stopped {
    dwframe_register registers[REGISTERS];
    size_t register_count;
    dwframe_window windows[WINDOWS];
    size_t window_count;
    uint8_t memory[MEMORY];
    size_t memory_len;
};

/* What the dump says; and what the walk gives: the registers of a frame, and the memory that it has given. */
static struct stopped dump, given;
static dwframe_stop stop;
static dwframe_section section;

static int fail(int status, const char *text)
{
    fprintf(stderr, "%s\n", text);
    return status;
}

/* The bytes of a file, and a zero byte behind them. */
static uint8_t *load(const char *path, size_t *len)
{
    uint8_t *bytes = NULL;
    long size = -1;
    FILE *file = fopen(path, "rb");
    if (!file)
        return NULL;
    if (fseek(file, 0, SEEK_END) == 0)
        size = ftell(file);
    rewind(file);
    if (size >= 0 && (bytes = calloc(1, (size_t)size + 1)))
        *len = fread(bytes, 1, (size_t)size, file);
    fclose(file);
    return bytes;
}

/* ---- the dump: a line `pc V`, lines `rN V` and `mem V BYTES` */

static void add_register(struct stopped *machine, dwframe_register own)
{
    if (machine->register_count < REGISTERS)
        machine->registers[machine->register_count++] = own;
}

/* What a call needs to know of it. */
static dwframe_machine lent(const struct stopped *machine)
{
    return dwframe_machine_of(machine->registers, machine->register_count, machine->windows, machine->window_count, machine->memory,
        machine->memory_len);
}

/* Lets a window stand over the last `len` bytes of memory. Answers whether there was room. */
static int add_window(struct stopped *machine, uint64_t address, size_t len)
{
    if (machine->window_count == WINDOWS)
        return 0;
    machine->windows[machine->window_count++] = (dwframe_window){address, machine->memory_len - len, len};
    return 1;
}

static void read_memory(uint64_t address, const char *digits)
{
    size_t len = 0;
    unsigned byte;
    while (sscanf(digits, "%2x", &byte) == 1 && dump.memory_len < MEMORY) {
        dump.memory[dump.memory_len++] = (uint8_t)byte;
        len++;
        digits += 2;
    }
    add_window(&dump, address, len);
}

static int read_dump(const char *text)
{
    int has_pc = 0;
    unsigned number;
    uint64_t value;
    for (const char *line = text; *line; line += strcspn(line, "\n"), line += *line == '\n') {
        int digits = 0;
        if (sscanf(line, "pc %" SCNx64, &stop.pc) == 1)
            has_pc = 1;
        else if (sscanf(line, "r%u %" SCNx64, &number, &value) == 2)
            add_register(&dump, (dwframe_register){.number = (uint16_t)number, .known = 1, .value = value});
        else if (sscanf(line, "mem %" SCNx64 " %n", &value, &digits) == 1 && digits)
            read_memory(value, line + digits);
    }
    return has_pc;
}

/* ---- frames */

static const char *const KINDS[] = {"", "StackUnderflow", "DivideByZero", "NoRegister", "Unreadable", "Device", "StepLimit",
    "EmptyResult", "NotAValue", "NoFrameBase", "NoCfa", "NoObject", "MissingPiece"};

static int tell(dwframe_status status, const dwframe_refusal *refusal, const dwframe_fault *fault)
{
    char name[DWFRAME_NAME_SIZE] = "", column[16] = "cfa";
    if (fault->column != DWFRAME_COLUMN_CFA)
        snprintf(column, sizeof column, "r%" PRIu32, fault->column);
    switch (status) {
    case DWFRAME_REFUSED:
        dwframe_refusal_name(refusal->code, name, sizeof name);
        fprintf(stderr, "refused: %s at 0x%zx\n", name, refusal->at);
        return 2;
    case DWFRAME_NO_FDE:
        return fail(2, "fault: NoFde");
    case DWFRAME_NO_VALUE:
        fprintf(stderr, "fault: %s at %zu in %s\n", KINDS[fault->kind], fault->index, column);
        return 2;
    case DWFRAME_UNREADABLE:
    case DWFRAME_NO_REGISTER:
        fprintf(stderr, "fault: %s in %s\n", status == DWFRAME_UNREADABLE ? "Unreadable" : "NoRegister", column);
        return 2;
    case DWFRAME_BAD_ARGUMENT:
        return fail(3, "bad address size or byte order");
    case DWFRAME_TOO_SHORT:
        return fail(5, "too many registers");
    case DWFRAME_BAD_INDEX:
        return fail(2, "the index is not the one of the section");
    default:
        return fail(5, "out of memory");
    }
}

static dwframe_register caller[REGISTERS];

static int print_frame(void)
{
    dwframe_frame frame;
    dwframe_refusal refusal;
    dwframe_fault fault;
    dwframe_machine machine = lent(&dump);
    dwframe_status status = dwframe_unwind(&section, &stop, &machine, caller, REGISTERS, &frame, &refusal, &fault);
    if (status != DWFRAME_OK)
        return tell(status, &refusal, &fault);
    printf("cfa 0x%" PRIx64 "\nra r%u\n", frame.cfa, frame.return_register);
    for (size_t i = 0; i < frame.count; i++) {
        if (caller[i].known)
            printf("r%u 0x%" PRIx64 "\n", caller[i].number, caller[i].value);
        else
            printf("r%u undefined\n", caller[i].number);
    }
    return 0;
}

/* ---- the walk, which fetches what is wanted */

static dwframe_entry *table;
static size_t entries;

static dwframe_status make_index(dwframe_refusal *refusal)
{
    dwframe_status status = dwframe_index_size(&section, &entries, refusal);
    if (status != DWFRAME_OK)
        return status;
    /* No pointer is null, also where there are no entries. */
    if (!(table = malloc((entries + 1) * sizeof *table)))
        return DWFRAME_OUT_OF_MEMORY;
    return dwframe_index(&section, table, entries, &entries, refusal);
}

/* Whether a read ends within the address space. What passes its end cannot be given. */
static int is_in_space(uint64_t address, size_t len)
{
    uint64_t last = section.address_size == 4 ? UINT32_MAX : UINT64_MAX;
    return address <= last && len - 1 <= last - address;
}

/* The byte of the dump at an address, or -1. */
static int byte_at(uint64_t address)
{
    for (size_t i = 0; i < dump.window_count; i++) {
        const dwframe_window *window = &dump.windows[i];
        if (window->address <= address && address - window->address < window->len)
            return dump.memory[window->place + (address - window->address)];
    }
    return -1;
}

/* Gives the bytes from an address on, if they are there. */
static int fetch(uint64_t address, size_t len)
{
    if (!is_in_space(address, len) || MEMORY - given.memory_len < len)
        return 0;
    for (size_t i = 0; i < len; i++) {
        int byte = byte_at(address + i);
        if (byte < 0)
            return 0;
        given.memory[given.memory_len + i] = (uint8_t)byte;
    }
    given.memory_len += len;
    return add_window(&given, address, len);
}

static int wants_memory(dwframe_status status, const dwframe_fault *fault)
{
    return status == DWFRAME_UNREADABLE || (status == DWFRAME_NO_VALUE && fault->kind == DWFRAME_FAULT_UNREADABLE);
}

/* The caller's frame, with its registers in `caller`. What was fetched is not wanted again, so this ends. */
static dwframe_status unwind(dwframe_frame *frame, dwframe_refusal *refusal, dwframe_fault *fault)
{
    dwframe_status status;
    do {
        dwframe_machine machine = lent(&given);
        status = dwframe_unwind_at(&section, table, entries, &stop, &machine, caller, REGISTERS, frame, refusal, fault);
    } while (wants_memory(status, fault) && fetch(fault->address, fault->len));
    return status;
}

/* Makes the caller's registers the machine's: its stack pointer is the CFA. Answers whether the return address is known, and
   lets it be looked up in the call, which is one byte before it. */
static int go_up(const dwframe_frame *frame, uint16_t stack_pointer, uint64_t *pc)
{
    int found = 0;
    given.register_count = 0;
    add_register(&given, (dwframe_register){.number = stack_pointer, .known = 1, .value = frame->cfa});
    for (size_t i = 0; i < frame->count; i++) {
        if (caller[i].number == frame->return_register && caller[i].known) {
            *pc = caller[i].value;
            found = 1;
        }
        add_register(&given, caller[i]);
    }
    stop.pc = *pc ? *pc - 1 : 0;
    return found;
}

static int walk(uint16_t stack_pointer)
{
    uint64_t pc = stop.pc, last = 0;
    dwframe_frame frame;
    dwframe_refusal refusal;
    dwframe_fault fault = {0};
    dwframe_status status = make_index(&refusal);
    if (status != DWFRAME_OK)
        return tell(status, &refusal, &fault);
    for (size_t i = 0; i < dump.register_count; i++)
        add_register(&given, dump.registers[i]);
    for (unsigned number = 0;; number++) {
        printf("#%u 0x%" PRIx64 "\n", number, pc);
        status = unwind(&frame, &refusal, &fault);
        if (status == DWFRAME_NO_FDE)
            return 0;
        if (status != DWFRAME_OK)
            return tell(status, &refusal, &fault);
        if (number && frame.cfa <= last)
            return fail(2, "a frame does not stand above the one before");
        last = frame.cfa;
        if (!go_up(&frame, stack_pointer, &pc))
            return 0;
    }
}

int main(int argc, char **argv)
{
    size_t len = 0, text_len = 0;
    if (argc < 5 || argc > 6)
        return fail(3, "usage: frames 4|8 little|big FILE DUMP [N]");
    stop.unset = DWFRAME_UNSET_UNCHANGED;
    stop.steps = 10000;
    uint8_t *bytes = load(argv[3], &len);
    char *text = (char *)load(argv[4], &text_len);
    int status;
    section = dwframe_section_of(bytes, len, (uint32_t)atoi(argv[1]), strcmp(argv[2], "big") ? DWFRAME_LITTLE : DWFRAME_BIG);
    if (!bytes || !text)
        status = fail(4, "cannot read a file");
    else if (!read_dump(text))
        status = fail(2, "fault: NoPc");
    else
        status = argc == 6 ? walk((uint16_t)atoi(argv[5])) : print_frame();
    free(bytes);
    free(table);
    free(text);
    return status;
}
