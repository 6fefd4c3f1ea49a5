/* Looks addresses up, by the library for C:
 *
 *     lookup 4|8 little|big FILE ADDRESS..     prints the row at each address, by one call for all
 *     lookup 4|8 little|big FILE               prints each FDE and its rows, as `dwframe rows`,
 *                                              by one call for each entry of the index
 *
 * FILE is a raw .debug_frame. An expression is printed as the shortest block of its operations, in hexadecimal digits: `expr(2301)`. */
#include <inttypes.h>
#include <stdio.h>
#include <stdlib.h>
#include <string.h>

#include "dwframe.h"

/* A row has a rule for each of 65,536 registers at most; those of real programs have some twenty. */
enum { RULES = 512, BYTES = 1 << 14, TEXT = 32 * RULES + 2 * BYTES, WORDS = 64, CHANGES = 1 << 12 };

static dwframe_section section;
static size_t entries;
static dwframe_entry *table;
static uint8_t expressions[BYTES];
static dwframe_block blocks[RULES];
static dwframe_blocks all;

static int fail(int status, const char *text)
{
    fprintf(stderr, "%s\n", text);
    return status;
}

/* The bytes of a file, and a zero byte behind them. */
static uint8_t *load(const char *path, size_t *len)
{
    uint8_t *bytes = NULL;
    long size = -1;
    FILE *file = fopen(path, "rb");
    if (!file)
        return NULL;
    if (fseek(file, 0, SEEK_END) == 0)
        size = ftell(file);
    rewind(file);
    if (size >= 0 && (bytes = calloc(1, (size_t)size + 1)))
        *len = fread(bytes, 1, (size_t)size, file);
    fclose(file);
    return bytes;
}

static int tell(dwframe_status status, const dwframe_refusal *refusal)
{
    char name[DWFRAME_NAME_SIZE] = "";
    if (status == DWFRAME_BAD_ARGUMENT)
        return fail(3, "bad address size or byte order");
    if (status == DWFRAME_TOO_SHORT)
        return fail(5, "a row or an FDE is too long for this example");
    if (status != DWFRAME_REFUSED)
        return fail(5, "out of memory");
    dwframe_refusal_name(refusal->code, name, sizeof name);
    fprintf(stderr, "refused: %s at 0x%zx\n", name, refusal->at);
    return 2;
}

/* ---- the text of a row, as the command prints it */

/* The expression of a column, a register's number or DWFRAME_COLUMN_CFA. */
static char *put_expression(char *text, uint32_t column)
{
    text += sprintf(text, "expr(");
    for (size_t i = 0; i < all.count; i++)
        for (size_t j = 0; blocks[i].column == column && j < blocks[i].len; j++)
            text += sprintf(text, "%02x", expressions[blocks[i].place + j]);
    return text + sprintf(text, ")");
}

static void put_rule(char *text, const dwframe_rule *rule)
{
    text += sprintf(text, " r%u=", rule->number);
    switch (rule->kind) {
    case DWFRAME_RULE_UNDEFINED:
        sprintf(text, "u");
        break;
    case DWFRAME_RULE_SAME_VALUE:
        sprintf(text, "s");
        break;
    case DWFRAME_RULE_OFFSET:
        sprintf(text, "[cfa%+" PRId64 "]", rule->offset);
        break;
    case DWFRAME_RULE_VAL_OFFSET:
        sprintf(text, "cfa%+" PRId64, rule->offset);
        break;
    case DWFRAME_RULE_REGISTER:
        sprintf(text, "r%u", rule->other);
        break;
    case DWFRAME_RULE_EXPRESSION:
        *text++ = '[';
        sprintf(put_expression(text, rule->number), "]");
        break;
    default:
        put_expression(text, rule->number);
    }
}

static void put_row(char *text, const dwframe_row *row, const dwframe_rule *rules)
{
    if (row->cfa_kind == DWFRAME_CFA_REGISTER)
        sprintf(text, " cfa=r%u%+" PRId64, row->cfa_register, row->cfa_offset);
    else
        put_expression(text + sprintf(text, " cfa="), DWFRAME_COLUMN_CFA);
    for (size_t i = 0; i < row->count; i++)
        put_rule(text + strlen(text), &rules[i]);
}

static int has_expression(const dwframe_row *row, const dwframe_rule *rules)
{
    int found = row->cfa_kind == DWFRAME_CFA_EXPRESSION;
    for (size_t i = 0; i < row->count; i++)
        found |= rules[i].kind == DWFRAME_RULE_EXPRESSION || rules[i].kind == DWFRAME_RULE_VAL_EXPRESSION;
    return found;
}

/* The row at an address as a text. */
static int put_text(uint64_t address, char *text, const dwframe_row *row, const dwframe_rule *rules)
{
    dwframe_refusal refusal;
    dwframe_status status = DWFRAME_OK;
    if (has_expression(row, rules))
        status = dwframe_expressions_at(
            &section, table, entries, address, expressions, BYTES, blocks, RULES, &all, &refusal);
    if (status != DWFRAME_OK)
        return tell(status, &refusal);
    put_row(text, row, rules);
    return 0;
}

/* The rows of an FDE from first to last, each with the rules of its registers. */
static int print_changes(const dwframe_change *changes, const dwframe_rule *rules, size_t count)
{
    static char text[TEXT];
    for (size_t i = 0; i < count; i++) {
        int status = changes[i].row.count > RULES ? tell(DWFRAME_TOO_SHORT, NULL)
                                                  : put_text(changes[i].address, text, &changes[i].row, rules);
        if (status)
            return status;
        printf(" 0x%" PRIx64 "%s\n", changes[i].address, text);
        rules += changes[i].row.count;
    }
    return 0;
}

static int print_fde(const dwframe_entry *fde)
{
    static dwframe_change changes[CHANGES];
    static dwframe_rule rules[16 * CHANGES];
    dwframe_totals needed;
    dwframe_refusal refusal;
    uint64_t last = fde->begin + (fde->range - 1);
    /* The end may be 2^64. */
    printf("fde 0x%" PRIx64 " 0x", fde->begin);
    printf(last == UINT64_MAX ? "10000000000000000" : "%" PRIx64, last + 1);
    printf(" ra=r%u\n", fde->return_register);
    dwframe_status status =
        dwframe_changes_at(&section, table, entries, fde->begin, changes, CHANGES, rules,
            16 * CHANGES, &needed, &refusal);
    return status == DWFRAME_OK ? print_changes(changes, rules, needed.changes) : tell(status, &refusal);
}

static int print_all(void)
{
    int status = 0;
    for (size_t i = 0; i < entries && !status; i++)
        status = print_fde(&table[i]);
    return status;
}

static int print_rows(const uint64_t *addresses, const dwframe_row *rows, const dwframe_rule *rules, size_t count)
{
    static char text[TEXT];
    for (size_t i = 0; i < count; i++) {
        strcpy(text, " no FDE");
        int status = rows[i].range ? put_text(addresses[i], text, &rows[i], rules) : 0;
        if (status)
            return status;
        printf("0x%" PRIx64 "%s\n", addresses[i], text);
        rules += rows[i].count;
    }
    return 0;
}

static int print_these(char **words, size_t count)
{
    uint64_t addresses[WORDS];
    dwframe_row rows[WORDS];
    static dwframe_rule rules[WORDS * RULES];
    dwframe_refusal refusal;
    size_t done;
    for (size_t i = 0; i < count; i++)
        addresses[i] = strtoull(words[i], NULL, 0);
    dwframe_status status =
        dwframe_rows_at(&section, addresses, count, rows, WORDS, rules, WORDS * RULES, &done, &refusal);
    return status == DWFRAME_OK ? print_rows(addresses, rows, rules, done) : tell(status, &refusal);
}

/* Makes the index, and prints what is asked for. */
static int run(char **words, size_t count)
{
    dwframe_refusal refusal;
    dwframe_status status = dwframe_index_size(&section, &entries, &refusal);
    if (status != DWFRAME_OK)
        return tell(status, &refusal);
    table = malloc(entries * sizeof *table + 1);
    if (!table)
        return fail(5, "out of memory");
    status = dwframe_index(&section, table, entries, &entries, &refusal);
    if (status != DWFRAME_OK)
        return tell(status, &refusal);
    return count ? print_these(words, count) : print_all();
}

int main(int argc, char **argv)
{
    if (argc < 4 || argc - 4 > WORDS)
        return fail(3, "usage: lookup 4|8 little|big FILE [ADDRESS..], of 64 addresses at most");
    size_t len = 0;
    uint8_t *bytes = load(argv[3], &len);
    if (!bytes)
        return fail(4, "the file cannot be read");
    uint32_t byte_order = strcmp(argv[2], "little") ? DWFRAME_BIG : DWFRAME_LITTLE;
    section = dwframe_section_of(bytes, len, (uint32_t)atoi(argv[1]), byte_order);
    int status = run(argv + 4, (size_t)argc - 4);
    free(table);
    free(bytes);
    return status;
}
