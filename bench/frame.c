/* Frames by the library for C, of a machine that stopped as a dump says:
 *
 *     frame COUNT FILE 4|8 little|big DUMP
 *
 * The dump has a line `pc ADDRESS`, lines `rN VALUE` and one line `mem ADDRESS BYTES`, as bench/run writes them. Each call is
 * dwframe_unwind_at. Callgrind's count of a run with 1 + N frames less that of one with 1 is the cost of N. */
#include <inttypes.h>
#include <stdio.h>
#include <stdlib.h>
#include <string.h>

#include "dwframe.h"

enum { REGISTERS = 512 };

static uint8_t bytes[1 << 24], memory[1 << 20];
static char line[1 << 22];
static size_t len, entries, given, memory_len;
static dwframe_entry *table;
static dwframe_refusal refusal;
static dwframe_register registers[REGISTERS], out[REGISTERS];
static dwframe_window window;
static dwframe_stop stop;

static int digit(char c)
{
    static const char digits[] = "0123456789abcdef";
    const char *at = c ? strchr(digits, c) : NULL;
    return at ? (int)(at - digits) : -1;
}

static void read_memory(const char *text)
{
    char *hex;
    window.address = strtoull(text, &hex, 0);
    for (hex++; memory_len < sizeof memory && digit(hex[0]) >= 0 && digit(hex[1]) >= 0; hex += 2)
        memory[memory_len++] = (uint8_t)(digit(hex[0]) << 4 | digit(hex[1]));
    window.len = memory_len;
}

static int read_dump(const char *path)
{
    FILE *file = fopen(path, "r");
    if (!file)
        return 2;
    while (fgets(line, sizeof line, file)) {
        char *value;
        if (!strncmp(line, "pc ", 3)) {
            stop.pc = strtoull(line + 3, NULL, 0);
        } else if (!strncmp(line, "mem ", 4)) {
            read_memory(line + 4);
        } else if (line[0] == 'r' && given < REGISTERS) {
            uint16_t number = (uint16_t)strtoul(line + 1, &value, 10);
            registers[given++] = (dwframe_register){number, 1, 0, strtoull(value, NULL, 0)};
        }
    }
    fclose(file);
    return 0;
}

int main(int argc, char **argv)
{
    FILE *file = argc == 6 ? fopen(argv[2], "rb") : NULL;
    if (!file)
        return 1;
    len = fread(bytes, 1, sizeof bytes, file);
    fclose(file);
    dwframe_section section = dwframe_section_of(bytes, len, (uint32_t)atoi(argv[3]), !strcmp(argv[4], "big"));
    stop = (dwframe_stop){0, 1000, DWFRAME_UNSET_UNCHANGED, 0};
    if (read_dump(argv[5]) || dwframe_index_size(&section, &entries, &refusal))
        return 2;
    table = malloc(entries * sizeof *table + 1);
    if (!table || dwframe_index(&section, table, entries, &entries, &refusal))
        return 2;
    dwframe_machine machine = {registers, given, &window, 1, memory, memory_len};
    dwframe_frame frame = {0};
    dwframe_fault fault;
    dwframe_status status = DWFRAME_OK;
    for (uint64_t count = strtoull(argv[1], NULL, 10); count && !status; count--)
        status = dwframe_unwind_at(&section, table, entries, &stop, &machine, out, REGISTERS, &frame, &refusal, &fault);
    printf("status=%u cfa=%#" PRIx64 " registers=%zu\n", (unsigned)status, frame.cfa, frame.count);
    free(table);
    return status ? 3 : 0;
}
