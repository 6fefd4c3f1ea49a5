/* How much stack each call of the library for C takes:
 *
 *     stack SIZE ORDER FILE
 *
 * FILE is a well formed section. Each call runs on a stack of its own, which was painted before, and the bytes from the deepest one that
 * changed are counted: the calls by an index at addresses of each FDE, those that judge the whole section at addresses of some. Printed is
 * the most of each call. What the C library's malloc takes of the stack, where memory is asked for, is in it. */
#define _XOPEN_SOURCE 700
#include <stdio.h>
#include <stdlib.h>
#include <string.h>
#include <ucontext.h>

#include "dwframe.h"

enum { BYTES = 1 << 24, STACK = 1 << 18, PAINT = 0xa5, ROOM = 1 << 16, GIVEN = 128, LOOK_UPS = 8, FEW = 16 };

static uint8_t bytes[BYTES], out[BYTES], memory[1 << 16];
static dwframe_section section;
static size_t entries, needed;
static dwframe_entry *table;
static dwframe_refusal refusal;
static dwframe_rule rules[ROOM];
static dwframe_row row;
static dwframe_register registers[GIVEN], told[ROOM];
static dwframe_frame frame;
static dwframe_fault fault;
static uint64_t address;
static unsigned char stack[STACK];
static ucontext_t here, there;
/* What the calls answer says nothing here. */
static dwframe_status status;

/* ---- the calls */

static void nothing(void)
{
}

static void check(void)
{
    dwframe_counts counts;
    status = dwframe_check(&section, &counts, &refusal);
}

static void name(void)
{
    char text[DWFRAME_NAME_SIZE];
    needed = dwframe_refusal_name(DWFRAME_REFUSAL_TRUNCATED, text, sizeof text);
    needed = dwframe_status_name(DWFRAME_REFUSED, text, sizeof text);
    needed = dwframe_fault_name(DWFRAME_FAULT_UNREADABLE, text, sizeof text);
}

static void normalise(void)
{
    status = dwframe_normalise(&section, out, sizeof out, &needed, &refusal);
}

static void same(void)
{
    uint32_t alike;
    status = dwframe_same(&section, &section, &alike, &refusal);
}

static void index_size(void)
{
    status = dwframe_index_size(&section, &needed, &refusal);
}

static void make_index(void)
{
    status = dwframe_index(&section, table, entries, &needed, &refusal);
}

static void row_at(void)
{
    status = dwframe_row_at(&section, table, entries, address, rules, ROOM, &row, &refusal);
}

static void rows_at(void)
{
    status = dwframe_rows_at(&section, &address, 1, &row, 1, rules, ROOM, &needed, &refusal);
}

static void expressions_at(void)
{
    static dwframe_block blocks[ROOM];
    dwframe_blocks all;
    status = dwframe_expressions_at(&section, table, entries, address, out, sizeof out, blocks, ROOM, &all, &refusal);
}

static void changes(void)
{
    static dwframe_change found[ROOM];
    dwframe_totals totals;
    status = dwframe_changes(&section, address, found, ROOM, rules, ROOM, &totals, &refusal);
}

static void changes_at(void)
{
    static dwframe_change found[ROOM];
    dwframe_totals totals;
    status = dwframe_changes_at(
        &section, table, entries, address, found, ROOM, rules, ROOM, &totals, &refusal);
}

/* A machine whose registers are all in the middle of its memory. */
static const dwframe_window window = {0x8000, 0, sizeof memory};
static const dwframe_machine machine = {registers, GIVEN, &window, 1, memory, sizeof memory};

static void unwind(void)
{
    dwframe_stop stop = {address, 100, DWFRAME_UNSET_UNCHANGED, 0};
    status = dwframe_unwind(&section, &stop, &machine, told, ROOM, &frame, &refusal, &fault);
}

static void unwind_at(void)
{
    dwframe_stop stop = {address, 100, DWFRAME_UNSET_UNCHANGED, 0};
    status = dwframe_unwind_at(&section, table, entries, &stop, &machine, told, ROOM, &frame, &refusal, &fault);
}

/* breg7 8; deref; and then lit1 many times. */
static void evaluate(void)
{
    static uint8_t block[1024] = {0x77, 0x08, 0x06};
    memset(block + 3, 0x31, sizeof block - 3);
    dwframe_context context = {.steps = sizeof block, .address_size = section.address_size, .byte_order = section.byte_order};
    uint64_t value;
    status = dwframe_evaluate(block, sizeof block, &context, &machine, &value, &refusal, &fault);
}

static struct {
    const char *name;
    void (*call)(void);
    size_t most;
} by_index[] = {{"row_at", row_at, 0}, {"expressions_at", expressions_at, 0},
      {"unwind_at", unwind_at, 0}, {"changes_at", changes_at, 0}},
  whole[] = {{"rows_at", rows_at, 0}, {"changes", changes, 0}, {"unwind", unwind, 0}, {"check", check, 0},
      {"index_size", index_size, 0}, {"index", make_index, 0}, {"normalise", normalise, 0}, {"same", same, 0},
      {"evaluate", evaluate, 0}, {"the names", name, 0}};
enum { BY_INDEX = sizeof by_index / sizeof *by_index, WHOLE = sizeof whole / sizeof *whole };

/* ---- the painted stack */

static size_t taken(void (*call)(void))
{
    memset(stack, PAINT, STACK);
    getcontext(&there);
    there.uc_stack.ss_sp = stack;
    there.uc_stack.ss_size = STACK;
    there.uc_link = &here;
    makecontext(&there, call, 0);
    swapcontext(&here, &there);
    size_t left = 0;
    while (left < STACK && stack[left] == PAINT)
        left++;
    return STACK - left;
}

static size_t more(size_t most, size_t found)
{
    return most < found ? found : most;
}

static void look_up(const dwframe_entry *fde, int all)
{
    uint64_t step = (fde->range - 1) / LOOK_UPS + 1;
    for (uint64_t at = 0; at < fde->range; at += step) {
        address = fde->begin + at;
        for (size_t i = 0; i < BY_INDEX; i++)
            by_index[i].most = more(by_index[i].most, taken(by_index[i].call));
    }
    for (size_t i = 0; all && i < WHOLE; i++)
        whole[i].most = more(whole[i].most, taken(whole[i].call));
}

int main(int argc, char **argv)
{
    FILE *file = argc == 4 ? fopen(argv[3], "rb") : NULL;
    if (!file) {
        fprintf(stderr, "usage: stack SIZE ORDER FILE\n");
        return 3;
    }
    size_t len = fread(bytes, 1, sizeof bytes, file);
    fclose(file);
    section = dwframe_section_of(bytes, len, (uint32_t)atoi(argv[1]), !strcmp(argv[2], "big"));
    if (dwframe_index_size(&section, &entries, &refusal) != DWFRAME_OK)
        return 2;
    table = malloc((entries + 1) * sizeof *table);
    if (!table || dwframe_index(&section, table, entries, &entries, &refusal) != DWFRAME_OK)
        return 5;
    for (uint16_t i = 0; i < GIVEN; i++)
        registers[i] = (dwframe_register){i, 1, 0, 0x10000};
    size_t own = taken(nothing);
    for (size_t i = 0; i < entries; i++)
        look_up(&table[i], i % (entries / FEW + 1) == 0);
    for (size_t i = 0; i < BY_INDEX; i++)
        printf("%s %zu\n", by_index[i].name, by_index[i].most - own);
    for (size_t i = 0; i < WHOLE; i++)
        printf("%s %zu\n", whole[i].name, whole[i].most - own);
    free(table);
    return 0;
}
