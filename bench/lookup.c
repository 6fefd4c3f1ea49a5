/* Look-ups by an index with the library for C, of the addresses that `gimli-peer lookup` takes and with the sum that it prints:
 *
 *     lookup COUNT FILE 4|8 little|big
 *
 * Callgrind's count of a run less that of one with COUNT 0 is the cost of COUNT look-ups. */
#include <inttypes.h>
#include <stdio.h>
#include <stdlib.h>
#include <string.h>

#include "dwframe.h"

static uint64_t state = 0x9e3779b97f4a7c15;

static uint64_t below(uint64_t limit)
{
    state ^= state >> 12;
    state ^= state << 25;
    state ^= state >> 27;
    uint64_t number = state * 0x2545f4914f6cdd1d;
    return limit ? number % limit : 0;
}

enum { RULES = 64 };

static uint8_t bytes[1 << 24];
static dwframe_section section;
static size_t entries;
static dwframe_entry *table;
static dwframe_refusal refusal;

static int make_index(void)
{
    if (dwframe_index_size(&section, &entries, &refusal))
        return 2;
    table = malloc(entries * sizeof *table + 1);
    return !table || dwframe_index(&section, table, entries, &entries, &refusal) ? 2 : 0;
}

static uint64_t next_address(void)
{
    const dwframe_entry *fde = &table[below(entries)];
    return fde->begin + below(fde->range);
}

static uint64_t with(uint64_t sum, uint64_t address, const dwframe_row *row)
{
    uint64_t found = 1;
    if (row->cfa_kind == DWFRAME_CFA_REGISTER)
        found = row->cfa_register ^ (row->cfa_offset < 0 ? -(uint64_t)row->cfa_offset : (uint64_t)row->cfa_offset);
    return sum * 31 + (address ^ found << 32);
}

static int look_up(uint64_t count, uint64_t *sum)
{
    dwframe_rule rules[RULES];
    dwframe_row row;
    for (; count; count--) {
        uint64_t address = next_address();
        if (dwframe_row_at(&section, table, entries, address, rules, RULES, &row, &refusal))
            return 3;
        *sum = with(*sum, address, &row);
    }
    return 0;
}

int main(int argc, char **argv)
{
    FILE *file = argc == 5 ? fopen(argv[2], "rb") : NULL;
    if (!file)
        return 1;
    size_t len = fread(bytes, 1, sizeof bytes, file);
    fclose(file);
    uint64_t count = strtoull(argv[1], NULL, 10), sum = 0;
    section = dwframe_section_of(bytes, len, (uint32_t)atoi(argv[3]), !strcmp(argv[4], "big"));
    int status = make_index();
    if (!status)
        status = look_up(count, &sum);
    if (!status)
        printf("lookups=%" PRIu64 " sum=%016" PRIx64 "\n", count, sum);
    free(table);
    return status;
}
