/* Refuses each request for memory of each call of the library for C once:
 *
 *     refused SIZE ORDER FILE
 *
 * FILE is a well formed section. It is linked with --wrap=malloc, --wrap=realloc and --wrap=free. A call whose request is refused
 * answers that it is out of memory, tells nothing and leaves each room as it was, or answers as it
 * does with ample memory; and it gives back all that it took. The rooms of dwframe_changes and
 * dwframe_changes_at may hold anything after a refused request. */
#include <stddef.h>
#include <stdio.h>
#include <stdlib.h>
#include <string.h>

#include "dwframe.h"

/* ---- memory */

void *__real_malloc(size_t size);
void *__real_realloc(void *at, size_t size);
void __real_free(void *at);

/* Requests since a call began, which of them is refused (0 for none), and how many blocks it holds. */
static unsigned long requests, refused;
static long held;
static int is_counted;

void *__wrap_malloc(size_t size)
{
    if (is_counted && ++requests == refused)
        return NULL;
    void *at = __real_malloc(size);
    held += is_counted && at;
    return at;
}

void *__wrap_realloc(void *at, size_t size)
{
    if (is_counted && ++requests == refused)
        return NULL;
    void *moved = __real_realloc(at, size);
    held += is_counted && !at && moved;
    return moved;
}

void __wrap_free(void *at)
{
    held -= is_counted && at;
    __real_free(at);
}

/* ---- what calls are given, and what they tell */

enum { BYTES = 1 << 14, ENTRIES = 256, RULES = 1024, ROWS = 24, CHANGES = 256, BLOCKS = 64, REGISTERS = 512, FILLED = 0xa5 };

static uint8_t bytes[BYTES], normal_form[2 * BYTES];
static dwframe_section section, normal;
static dwframe_entry table[ENTRIES];
static size_t entries;
static uint64_t addresses[ROWS], address;
static size_t address_count;

static struct rooms {
    uint8_t bytes[2 * BYTES];
    dwframe_entry entries[ENTRIES];
    dwframe_rule rules[RULES];
    dwframe_row rows[ROWS];
    dwframe_change changes[CHANGES];
    dwframe_block blocks[BLOCKS];
    dwframe_register registers[REGISTERS];
} rooms, ordinary_rooms;

static struct told {
    dwframe_counts counts;
    dwframe_refusal refusal;
    dwframe_frame frame;
    dwframe_fault fault;
    dwframe_row row;
    dwframe_blocks blocks;
    dwframe_totals totals;
    uint64_t alike, value;
    size_t number;
} told, ordinary_told;

static dwframe_status call_check(void)
{
    return dwframe_check(&section, &told.counts, &told.refusal);
}

static dwframe_status call_normalise(void)
{
    return dwframe_normalise(&section, rooms.bytes, sizeof rooms.bytes, &told.number, &told.refusal);
}

static dwframe_status call_same(void)
{
    uint32_t alike;
    dwframe_status status = dwframe_same(&section, &normal, &alike, &told.refusal);
    told.alike = alike;
    return status;
}

static dwframe_status call_index_size(void)
{
    return dwframe_index_size(&section, &told.number, &told.refusal);
}

static dwframe_status call_index(void)
{
    return dwframe_index(&section, rooms.entries, ENTRIES, &told.number, &told.refusal);
}

static dwframe_status call_row_at(void)
{
    return dwframe_row_at(&section, table, entries, address, rooms.rules, RULES, &told.row, &told.refusal);
}

static dwframe_status call_rows_at(void)
{
    return dwframe_rows_at(
        &section, addresses, address_count, rooms.rows, ROWS, rooms.rules, RULES, &told.number, &told.refusal);
}

static dwframe_status call_expressions_at(void)
{
    return dwframe_expressions_at(&section, table, entries, address, rooms.bytes, sizeof rooms.bytes, rooms.blocks, BLOCKS,
        &told.blocks, &told.refusal);
}

static dwframe_status call_changes(void)
{
    return dwframe_changes(&section, address, rooms.changes, CHANGES, rooms.rules, RULES, &told.totals, &told.refusal);
}

static dwframe_status call_changes_at(void)
{
    return dwframe_changes_at(&section, table, entries, address, rooms.changes, CHANGES,
        rooms.rules, RULES, &told.totals, &told.refusal);
}

/* A machine whose registers are all in the middle of what is known of its memory. */
static const uint8_t memory[4096];
static const dwframe_window windows[] = {{0x7000, 2048, 2048}, {0x6800, 0, 2048}};
enum { GIVEN = 32, MANY = 80, WINDOWS = sizeof windows / sizeof *windows };
static dwframe_register registers[MANY];
static const dwframe_machine machine = {registers, GIVEN, windows, WINDOWS, memory, sizeof memory};

static dwframe_stop stop_here(void)
{
    for (uint16_t i = 0; i < MANY; i++)
        registers[i] = (dwframe_register){i, 1, 0, 0x7000};
    return (dwframe_stop){address, 100, DWFRAME_UNSET_UNCHANGED, 0};
}

static dwframe_status call_unwind(void)
{
    dwframe_stop stop = stop_here();
    return dwframe_unwind(
        &section, &stop, &machine, rooms.registers, REGISTERS, &told.frame, &told.refusal, &told.fault);
}

static dwframe_status call_unwind_at(void)
{
    dwframe_stop stop = stop_here();
    return dwframe_unwind_at(&section, table, entries, &stop, &machine, rooms.registers, REGISTERS, &told.frame, &told.refusal,
        &told.fault);
}

/* The same of a frame with more registers than take no memory. */
static dwframe_status call_unwind_wide(void)
{
    dwframe_stop stop = stop_here();
    dwframe_machine wide = dwframe_machine_of(registers, MANY, windows, WINDOWS, memory, sizeof memory);
    return dwframe_unwind_at(&section, table, entries, &stop, &wide, rooms.registers, REGISTERS, &told.frame, &told.refusal,
        &told.fault);
}

/* The same with no memory: the fault tells what was wanted. */
static dwframe_status call_unwind_blind(void)
{
    dwframe_stop stop = stop_here();
    dwframe_machine blind = dwframe_machine_of(registers, GIVEN, NULL, 0, NULL, 0);
    return dwframe_unwind_at(
        &section, table, entries, &stop, &blind, rooms.registers, REGISTERS, &told.frame, &told.refusal, &told.fault);
}

/* breg7 8; deref; plus: over what the stack begins with. */
static dwframe_status call_evaluate(void)
{
    static const uint8_t block[] = {0x77, 0x08, 0x06, 0x22};
    dwframe_context context = {.start = 1, .steps = 100, .address_size = section.address_size, .byte_order = section.byte_order,
        .has_start = 1};
    stop_here();
    return dwframe_evaluate(block, sizeof block, &context, &machine, &told.value, &told.refusal, &told.fault);
}

/* ---- each request refused */

static void stop_at(const char *name, const char *why)
{
    fprintf(stderr, "refused: %s, request %lu, address 0x%llx: %s\n", name, refused, (unsigned long long)address, why);
    exit(1);
}

/* What stands behind the fields of an entry says nothing. */
static void fill_padding(void)
{
    size_t end = offsetof(dwframe_entry, return_register) + sizeof(uint16_t);
    for (size_t i = 0; i < ENTRIES; i++)
        memset((uint8_t *)&rooms.entries[i] + end, FILLED, sizeof(dwframe_entry) - end);
}

static dwframe_status made(dwframe_status (*call)(void), unsigned long number, const char *name)
{
    memset(&rooms, FILLED, sizeof rooms);
    memset(&told, FILLED, sizeof told);
    requests = 0;
    held = 0;
    refused = number;
    is_counted = 1;
    dwframe_status status = call();
    is_counted = 0;
    fill_padding();
    if (held)
        stop_at(name, "a block is not given back");
    return status;
}

static int is_all(const void *from, size_t len, uint8_t value)
{
    for (const uint8_t *byte = from; len; len--)
        if (*byte++ != value)
            return 0;
    return 1;
}

/* A number that a call tells is 0 where it has no answer; of rows some may be told, and the rooms of changes may hold anything. */
static int is_nothing(int has_rows, int has_changes)
{
    int zero = is_all(&told.refusal, sizeof told.refusal, 0);
    const void *parts[] = {&told.counts, &told.frame, &told.fault, &told.row, &told.blocks, &told.totals, &told.alike,
        &told.value, &told.number};
    const size_t sizes[] = {sizeof told.counts, sizeof told.frame, sizeof told.fault, sizeof told.row, sizeof told.blocks,
        sizeof told.totals, sizeof told.alike, sizeof told.value, sizeof told.number};
    for (size_t i = 0; i < sizeof sizes / sizeof *sizes - (has_rows ? 1 : 0); i++)
        zero &= is_all(parts[i], sizes[i], 0) || is_all(parts[i], sizes[i], FILLED);
    if (has_changes)
        return zero;
    if (!has_rows)
        return zero && is_all(&rooms, sizeof rooms, FILLED);
    size_t done = told.number;
    return zero && done < address_count && !memcmp(rooms.rows, ordinary_rooms.rows, done * sizeof *rooms.rows) &&
           is_all(rooms.rows + done, (ROWS - done) * sizeof *rooms.rows, FILLED);
}

static unsigned long calls, all_requests;

static void each_refused(const char *name, dwframe_status (*call)(void))
{
    dwframe_status ordinary = made(call, 0, name);
    if (ordinary == DWFRAME_OUT_OF_MEMORY || ordinary == DWFRAME_BAD_ARGUMENT || ordinary == DWFRAME_TOO_SHORT)
        stop_at(name, "no ordinary answer");
    memcpy(&ordinary_rooms, &rooms, sizeof rooms);
    memcpy(&ordinary_told, &told, sizeof told);
    for (unsigned long number = 1;; number++) {
        dwframe_status status = made(call, number, name);
        int is_ordinary = status == ordinary && !memcmp(&told, &ordinary_told, sizeof told) &&
                          !memcmp(&rooms, &ordinary_rooms, sizeof rooms);
        if (requests < number && !is_ordinary)
            stop_at(name, "another answer though nothing was refused");
        int has_changes = call == call_changes || call == call_changes_at;
        if (!is_ordinary &&
            (status != DWFRAME_OUT_OF_MEMORY || !is_nothing(call == call_rows_at, has_changes)))
            stop_at(name, "neither out of memory nor the ordinary answer");
        if (requests < number)
            break;
        all_requests++;
    }
    calls++;
}

static void choose_addresses(void)
{
    for (size_t i = 0; i < entries && address_count + 3 <= ROWS; i += 1 + entries / (ROWS / 3)) {
        addresses[address_count++] = table[i].begin;
        addresses[address_count++] = table[i].begin + table[i].range / 2;
        addresses[address_count++] = table[i].begin + (table[i].range - 1);
    }
}

int main(int argc, char **argv)
{
    FILE *file = argc == 4 ? fopen(argv[3], "rb") : NULL;
    if (!file) {
        fprintf(stderr, "usage: refused SIZE ORDER FILE\n");
        return 3;
    }
    size_t len = fread(bytes, 1, sizeof bytes, file), normal_len;
    fclose(file);
    section = dwframe_section_of(bytes, len, (uint32_t)atoi(argv[1]), !strcmp(argv[2], "big"));
    if (dwframe_index(&section, table, ENTRIES, &entries, &told.refusal))
        stop_at("dwframe_index", "no index");
    choose_addresses();
    /* What the section is compared with. */
    if (dwframe_normalise(&section, normal_form, sizeof normal_form, &normal_len, &told.refusal))
        stop_at("dwframe_normalise", "no normal form");
    normal = dwframe_section_of(normal_form, normal_len, section.address_size, section.byte_order);
    each_refused("dwframe_check", call_check);
    each_refused("dwframe_normalise", call_normalise);
    each_refused("dwframe_same", call_same);
    each_refused("dwframe_index_size", call_index_size);
    each_refused("dwframe_index", call_index);
    each_refused("dwframe_rows_at", call_rows_at);
    each_refused("dwframe_evaluate", call_evaluate);
    for (size_t i = 0; i < address_count; i++) {
        address = addresses[i];
        each_refused("dwframe_row_at", call_row_at);
        each_refused("dwframe_expressions_at", call_expressions_at);
        each_refused("dwframe_changes", call_changes);
        each_refused("dwframe_changes_at", call_changes_at);
        each_refused("dwframe_unwind", call_unwind);
        each_refused("dwframe_unwind_at", call_unwind_at);
        each_refused("dwframe_unwind_at of many registers", call_unwind_wide);
        each_refused("dwframe_unwind_at without memory", call_unwind_blind);
    }
    printf("%lu calls, %lu requests refused\n", calls, all_requests);
    return 0;
}
