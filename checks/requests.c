/* Counts the requests for memory that look-ups and frames by an index make:
 *
 *     requests SIZE ORDER FILE
 *
 * FILE is a well formed section. It is linked with --wrap=malloc and --wrap=realloc. At addresses of each plain FDE dwframe_row_at and
 * dwframe_unwind_at are called: one in whose rows all registers are below 128, and no rule is an expression. Printed is how many
 * look-ups there were, and how many of them asked for memory; and the same of frames, where at most 64 registers are told. */
#include <stdio.h>
#include <stdlib.h>
#include <string.h>

#include "dwframe.h"

void *__real_malloc(size_t size);
void *__real_realloc(void *at, size_t size);

static unsigned long requests;

void *__wrap_malloc(size_t size)
{
    requests++;
    return __real_malloc(size);
}

void *__wrap_realloc(void *at, size_t size)
{
    requests++;
    return __real_realloc(at, size);
}

/* At most so many addresses of an FDE are looked up. */
enum { BYTES = 1 << 24, RULES = 256, GIVEN = 32, TOLD = 64, REGISTERS = 512, LOOK_UPS = 4096 };

static uint8_t bytes[BYTES];
static dwframe_section section;
static size_t entries;
static dwframe_entry *table;
static dwframe_refusal refusal;

static int is_plain(const dwframe_row *row, const dwframe_rule *rules)
{
    if (row->cfa_kind != DWFRAME_CFA_REGISTER || row->count > RULES)
        return 0;
    for (size_t i = 0; i < row->count; i++)
        if (rules[i].number >= 128 || rules[i].kind >= DWFRAME_RULE_EXPRESSION)
            return 0;
    return 1;
}

static unsigned long look_ups, asking_look_ups, frames, asking_frames;

/* Whether the row is a plain one. */
static int look_up(uint64_t address)
{
    static dwframe_rule rules[RULES];
    dwframe_row row;
    requests = 0;
    dwframe_status status = dwframe_row_at(&section, table, entries, address, rules, RULES, &row, &refusal);
    return status == DWFRAME_OK && is_plain(&row, rules);
}

/* The frame of a machine whose registers are all in the middle of its memory. */
static void unwind(uint64_t address)
{
    static const uint8_t memory[1 << 16];
    static dwframe_register registers[GIVEN], out[REGISTERS];
    for (uint16_t i = 0; i < GIVEN; i++)
        registers[i] = (dwframe_register){i, 1, 0, 0x10000};
    dwframe_window window = {0x8000, 0, sizeof memory};
    dwframe_stop stop = {address, 100, DWFRAME_UNSET_UNCHANGED, 0};
    dwframe_machine machine = {registers, GIVEN, &window, 1, memory, sizeof memory};
    dwframe_frame frame;
    dwframe_fault fault;
    requests = 0;
    dwframe_status status =
        dwframe_unwind_at(&section, table, entries, &stop, &machine, out, REGISTERS, &frame, &refusal, &fault);
    if (status != DWFRAME_OK || frame.count > TOLD)
        return;
    frames++;
    asking_frames += requests != 0;
}

static void count(const dwframe_entry *fde)
{
    uint64_t step = (fde->range - 1) / LOOK_UPS + 1, count = (fde->range - 1) / step + 1;
    unsigned long asked = 0;
    for (uint64_t i = 0; i < count; i++) {
        if (!look_up(fde->begin + i * step))
            return;
        asked += requests != 0;
    }
    look_ups += count;
    asking_look_ups += asked;
    for (uint64_t i = 0; i < count; i += count / 16 + 1)
        unwind(fde->begin + i * step);
}

int main(int argc, char **argv)
{
    FILE *file = argc == 4 ? fopen(argv[3], "rb") : NULL;
    if (!file) {
        fprintf(stderr, "usage: requests SIZE ORDER FILE\n");
        return 3;
    }
    size_t len = fread(bytes, 1, sizeof bytes, file);
    fclose(file);
    section = dwframe_section_of(bytes, len, (uint32_t)atoi(argv[1]), !strcmp(argv[2], "big"));
    if (dwframe_index_size(&section, &entries, &refusal) != DWFRAME_OK)
        return 2;
    table = malloc((entries + 1) * sizeof *table);
    if (!table || dwframe_index(&section, table, entries, &entries, &refusal) != DWFRAME_OK)
        return 5;
    for (size_t i = 0; i < entries; i++)
        count(&table[i]);
    printf("%lu %lu %lu %lu\n", look_ups, asking_look_ups, frames, asking_frames);
    free(table);
    return 0;
}
