/* Makes the calls of the library for C over COUNT damaged copies of a section, with damaged indexes, and of machines with random
 * registers and windows:
 *
 *     damage SIZE ORDER FILE COUNT
 *
 * A few bytes of each copy are changed, its end is cut, or all is random; none is as the section. Each call has to answer a status
 * that the header names, and a refusal a code that has a name. What is lent stands against pages that cannot be reached, so an access
 * past its end, or before its front, faults, whoever makes it; and what a status leaves as it is has to stay. */
#define _GNU_SOURCE

#include "damage.h"

static void call_whole(const uint8_t *bytes, size_t len)
{
    size_t before = lents, room = below(2 * section_len + 1), *needed = block(sizeof *needed);
    uint8_t *out = block(room);
    dwframe_counts *found = block(sizeof *found);
    uint32_t *alike = block(sizeof *alike);
    const dwframe_section *copy = given(bytes, len);
    dwframe_section *whole = memcpy(block(sizeof *whole), given(section, section_len), sizeof *whole);
    judge(dwframe_check(copy, found, refusal));
    if (judge(dwframe_normalise(copy, out, room, needed, refusal)) != DWFRAME_OK)
        has_stayed(out, room);
    else
        has_stayed(out + *needed, room - *needed);
    judge(dwframe_same(whole, copy, alike, refusal));
    judge(dwframe_same(copy, whole, alike, refusal));
    whole->byte_order ^= 1;
    if (judge(dwframe_same(copy, whole, alike, refusal)) != DWFRAME_BAD_ARGUMENT || *alike)
        stop_at("two sections of different orders");
    give_back(before);
}

/* Entries that are exchanged, left out, changed or random. */
static size_t damage_index(dwframe_entry *index)
{
    size_t left = entries;
    memcpy(index, table, entries * sizeof *index);
    for (uint64_t times = below(4); times && left; times--) {
        dwframe_entry *entry = &index[below(left)];
        switch (below(5)) {
        case 0:
            *entry = index[below(left)];
            break;
        case 1:
            entry->at = (uint32_t)below(2 * section_len + 1);
            break;
        case 2:
            entry->begin = number();
            entry->range = number();
            break;
        case 3:
            ((uint8_t *)entry)[below(sizeof *entry)] = (uint8_t)number();
            break;
        default:
            left = below(left + 1);
        }
    }
    return left;
}

/* A machine that stopped, with random registers and windows, and what is told of its caller. */
struct stopped {
    dwframe_stop *stop;
    dwframe_machine *held;
    dwframe_register *registers, *out;
    dwframe_window *windows;
    uint8_t *memory;
    size_t register_count, window_count, memory_len, room;
    dwframe_frame *frame;
    dwframe_fault *fault;
};

static struct stopped some_machine(uint64_t pc)
{
    struct stopped m = {.memory_len = below(64), .room = below(40), .register_count = below(20), .window_count = below(6)};
    m.memory = block(m.memory_len);
    m.registers = block(m.register_count * sizeof *m.registers);
    m.out = block(m.room * sizeof *m.out);
    m.windows = block(m.window_count * sizeof *m.windows);
    for (size_t i = 0; i < m.memory_len; i++)
        m.memory[i] = (uint8_t)number();
    for (size_t i = 0; i < m.register_count; i++)
        m.registers[i] =
            (dwframe_register){(uint16_t)below(i % 5 ? 20 : 65536), (uint16_t)below(3), (uint32_t)number(), i % 3 ? below(100) : number()};
    for (size_t i = 0; i < m.window_count; i++)
        m.windows[i] = (dwframe_window){i % 2 ? below(100) : number(), i % 3 ? below(70) : number(), i % 4 ? below(90) : number()};
    m.stop = block(sizeof *m.stop);
    *m.stop = (dwframe_stop){pc, below(100), (uint32_t)below(3), (uint32_t)number()};
    m.held = block(sizeof *m.held);
    m.frame = block(sizeof *m.frame);
    m.fault = block(sizeof *m.fault);
    return m;
}

static int wants_memory(dwframe_status status, const dwframe_fault *fault)
{
    return status == DWFRAME_UNREADABLE || (status == DWFRAME_NO_VALUE && fault->kind == DWFRAME_FAULT_UNREADABLE);
}

static int wants_register(dwframe_status status, const dwframe_fault *fault)
{
    return status == DWFRAME_NO_REGISTER || (status == DWFRAME_NO_VALUE && fault->kind == DWFRAME_FAULT_NO_REGISTER);
}

/* What a call takes of it now. */
static const dwframe_machine *held(const struct stopped *m)
{
    *m->held = (dwframe_machine){m->registers, m->register_count, m->windows, m->window_count, m->memory, m->memory_len};
    return m->held;
}

/* What was wanted is told where something is missing, and only there. */
static void judge_fault(dwframe_status status, const dwframe_fault *fault)
{
    if (wants_memory(status, fault) ? fault->len < 1 || fault->len > 8 : fault->len || fault->address)
        stop_at("a fault that tells of another read than one that failed");
    if (!wants_register(status, fault) && fault->wanted)
        stop_at("a fault that tells of another register than one that is wanted");
}

static dwframe_status judge_unwound(dwframe_status status, const struct stopped *m)
{
    judge(status);
    judge_fault(status, m->fault);
    size_t told = status == DWFRAME_OK ? m->frame->count : 0;
    has_stayed(m->out + told, (m->room - told) * sizeof *m->out);
    return status;
}

static dwframe_status unwind_at(const uint8_t *bytes, size_t len, const dwframe_entry *index, size_t left, const struct stopped *m)
{
    memset(m->out, FILLED, m->room * sizeof *m->out);
    size_t before = lents;
    dwframe_status status = dwframe_unwind_at(
        given(bytes, len), index, left, m->stop, held(m), m->out, m->room, m->frame, refusal, m->fault);
    give_back(before);
    return judge_unwound(status, m);
}

static dwframe_status unwind(const uint8_t *bytes, size_t len, const struct stopped *m)
{
    memset(m->out, FILLED, m->room * sizeof *m->out);
    size_t before = lents;
    dwframe_status status =
        dwframe_unwind(given(bytes, len), m->stop, held(m), m->out, m->room, m->frame, refusal, m->fault);
    give_back(before);
    return judge_unwound(status, m);
}

static void call_unwind(const uint8_t *bytes, size_t len)
{
    size_t before = lents;
    struct stopped m = some_machine(some_address());
    unwind(bytes, len, &m);
    give_back(before);
}

static void call_unwind_at(const uint8_t *bytes, size_t len)
{
    size_t before = lents;
    dwframe_entry *index = block(entries * sizeof *index);
    size_t left = damage_index(index);
    const dwframe_entry *entry = left ? &index[below(left)] : table;
    struct stopped m = some_machine(below(8) ? entry->begin + below(entry->range) : number());
    unwind_at(bytes, len, index, left, &m);
    give_back(before);
}

static int is_same_told(const struct stopped *m, const struct stopped *other, size_t count)
{
    const dwframe_frame *frame = m->frame, *other_frame = other->frame;
    const dwframe_fault *fault = m->fault, *other_fault = other->fault;
    int same = frame->cfa == other_frame->cfa && frame->count == other_frame->count &&
               frame->return_register == other_frame->return_register && fault->column == other_fault->column &&
               fault->kind == other_fault->kind && fault->index == other_fault->index && fault->address == other_fault->address &&
               fault->len == other_fault->len && fault->wanted == other_fault->wanted;
    for (size_t i = 0; i < count; i++)
        same &= m->out[i].number == other->out[i].number && m->out[i].known == other->out[i].known &&
                m->out[i].value == other->out[i].value;
    return same;
}

/* By the section's own index the frame is that of the section, and so is the fault. */
static void compare_unwound(void)
{
    size_t before = lents;
    /* Read in another way it may have another index. */
    if (size != table_size || order != table_order)
        return;
    struct stopped m = some_machine(some_address()), other = m;
    other.frame = block(sizeof *other.frame);
    other.fault = block(sizeof *other.fault);
    other.out = block(other.room * sizeof *other.out);
    dwframe_status status = unwind(section, section_len, &m);
    if (unwind_at(section, section_len, table, entries, &other) != status ||
        !is_same_told(&m, &other, status == DWFRAME_OK ? m.frame->count : 0))
        stop_at("another answer by the index than by the section");
    give_back(before);
}

/* ---- live memory: given as it is wanted, and no byte is wanted twice */

enum { READS = 1 << 12 };

static int is_given(const struct stopped *m, uint64_t address)
{
    for (size_t i = 0; i < m->window_count; i++)
        if (address - m->windows[i].address < m->windows[i].len)
            return 1;
    return 0;
}

/* Gives what a read wanted, unless it passes the end of the address space. */
static int give(struct stopped *m)
{
    size_t len = m->fault->len;
    uint64_t address = m->fault->address, last = size == 4 ? UINT32_MAX : UINT64_MAX, had = 0;
    if (address > last)
        stop_at("an address outside of the address space");
    if (len - 1 > last - address)
        return 0;
    for (uint64_t i = 0; i < len; i++)
        had += (uint64_t)is_given(m, address + i);
    if (had == len)
        stop_at("what was given is wanted again");
    if (m->window_count == READS)
        stop_at("more is wanted than there is");
    m->windows[m->window_count++] = (dwframe_window){address, m->memory_len, len};
    while (len--)
        m->memory[m->memory_len++] = (uint8_t)number();
    return 1;
}

static void unwind_live(void)
{
    static uint8_t memory[8 * READS];
    static dwframe_window windows[READS];
    size_t before = lents;
    struct stopped m = some_machine(some_address());
    m.memory = memory;
    m.windows = windows;
    m.memory_len = m.window_count = 0;
    while (wants_memory(unwind_at(section, section_len, table, entries, &m), m.fault) && give(&m))
        ;
    give_back(before);
}

/* ---- rows */

static void call_row_at(const uint8_t *bytes, size_t len)
{
    size_t before = lents, room = below(20), bytes_room = below(40), blocks_room = below(4);
    const dwframe_section *copy = given(bytes, len);
    dwframe_entry *index = block(entries * sizeof *index);
    size_t left = damage_index(index);
    dwframe_row *row = block(sizeof *row);
    dwframe_blocks *all = block(sizeof *all);
    for (int times = 0; times < 4; times++) {
        size_t kept = lents;
        dwframe_rule *rules = block(room * sizeof *rules);
        uint8_t *expressions = block(bytes_room);
        dwframe_block *blocks = block(blocks_room * sizeof *blocks);
        const dwframe_entry *entry = left ? &index[below(left)] : table;
        uint64_t address = below(8) ? entry->begin + below(entry->range) : number();
        judge(dwframe_row_at(copy, index, left, address, rules, room, row, refusal));
        size_t told = row->count < room ? row->count : room;
        has_stayed(rules + told, (room - told) * sizeof *rules);
        dwframe_status status = judge(
            dwframe_expressions_at(copy, index, left, address, expressions, bytes_room, blocks, blocks_room, all, refusal));
        if (status != DWFRAME_OK)
            *all = (dwframe_blocks){0, 0};
        has_stayed(expressions + all->len, bytes_room - all->len);
        has_stayed(blocks + all->count, (blocks_room - all->count) * sizeof *blocks);
        give_back(kept);
    }
    give_back(before);
}

/* A row of `dwframe_rows_at` and its rules are those that a look-up has, by the index of the same bytes. */
static size_t compare_row(const dwframe_section *copy, const dwframe_entry *index, size_t indexed, uint64_t address,
    const dwframe_row *row, const dwframe_rule *rules, size_t left)
{
    static dwframe_rule own[RULES];
    dwframe_row alone;
    dwframe_status status = dwframe_row_at(copy, index, indexed, address, own, RULES, &alone, refusal);
    if (status != (row->range ? DWFRAME_OK : DWFRAME_NO_FDE) || memcmp(&alone, row, sizeof alone))
        stop_at("a row that is not that of the look-up");
    for (size_t rule = 0; rule < alone.count && rule < left; rule++)
        if (memcmp(&own[rule], &rules[rule], sizeof *own))
            stop_at("a rule that is not that of the look-up");
    return alone.count;
}

static void call_rows_at(const uint8_t *bytes, size_t len)
{
    size_t before = lents, count = below(6), rows_room = count + below(3) - (count && !below(8)), room = below(40), indexed = 0;
    size_t told = 0;
    uint64_t *addresses = block(count * sizeof *addresses);
    const dwframe_section *copy = given(bytes, len);
    dwframe_row *rows = block(rows_room * sizeof *rows);
    dwframe_rule *rules = block(room * sizeof *rules);
    size_t *done = block(sizeof *done);
    if (dwframe_index_size(copy, &indexed, refusal))
        indexed = 0;
    dwframe_entry *index = block(indexed * sizeof *index);
    if (indexed && dwframe_index(copy, index, indexed, &indexed, refusal))
        stop_at("no index");
    for (size_t i = 0; i < count; i++)
        addresses[i] = some_address();
    dwframe_status status =
        judge(dwframe_rows_at(copy, addresses, count, rows, rows_room, rules, room, done, refusal));
    for (size_t i = 0; i < *done; i++) {
        size_t at = told < room ? told : room;
        told += compare_row(copy, index, indexed, addresses[i], &rows[i], rules + at, room - at);
    }
    if (status == DWFRAME_OK ? *done != count || told > room : status == DWFRAME_TOO_SHORT ? *done && told <= room : *done != 0)
        stop_at("a status that is not so");
    has_stayed(rows + *done, (rows_room - *done) * sizeof *rows);
    if (told < room)
        has_stayed(rules + told, (room - told) * sizeof *rules);
    give_back(before);
}

static int is_told(dwframe_status status)
{
    return status == DWFRAME_OK || status == DWFRAME_TOO_SHORT;
}

/* How many rows and rules there are, and that no other place of either room was written to. */
static void judge_totals(dwframe_status status, const dwframe_totals *needed,
    const dwframe_change *changes, size_t changes_room, const dwframe_rule *rules, size_t room)
{
    size_t count = needed->changes < changes_room ? needed->changes : changes_room;
    int fits = needed->changes <= changes_room && needed->rules <= room;
    int is_right = is_told(status) ? needed->changes && fits == (status == DWFRAME_OK)
                                   : !needed->changes && !needed->rules;
    if (!is_right)
        stop_at("totals that are not so");
    has_stayed(changes + count, (changes_room - count) * sizeof *changes);
    if (needed->rules < room)
        has_stayed(rules + needed->rules, (room - needed->rules) * sizeof *rules);
}

/* The rows of an FDE are those that a look-up has, by the index of the same bytes, and by that index
 * the same rows are told. */
static void call_changes(const uint8_t *bytes, size_t len)
{
    size_t before = lents, changes_room = below(8), room = below(40), indexed = 0;
    size_t told = 0;
    uint64_t address = some_address();
    const dwframe_section *copy = given(bytes, len);
    dwframe_change *changes = block(changes_room * sizeof *changes);
    dwframe_rule *rules = block(room * sizeof *rules);
    dwframe_totals *needed = block(sizeof *needed);
    if (dwframe_index_size(copy, &indexed, refusal))
        indexed = 0;
    dwframe_entry *index = block(indexed * sizeof *index);
    if (indexed && dwframe_index(copy, index, indexed, &indexed, refusal))
        stop_at("no index");
    dwframe_status status =
        judge(dwframe_changes(copy, address, changes, changes_room, rules, room, needed, refusal));
    judge_totals(status, needed, changes, changes_room, rules, room);
    size_t count = needed->changes < changes_room ? needed->changes : changes_room;
    for (size_t i = 0; i < count; i++) {
        size_t at = told < room ? told : room;
        told += compare_row(copy, index, indexed, changes[i].address, &changes[i].row, rules + at, room - at);
        if (i ? changes[i].address <= changes[i - 1].address : changes[i].address != changes[i].row.begin)
            stop_at("rows that do not ascend from their begin");
    }
    if (count == needed->changes && told != needed->rules)
        stop_at("another number of rules");
    dwframe_change *again = block(changes_room * sizeof *again);
    dwframe_rule *rules_again = block(room * sizeof *rules_again);
    dwframe_totals *totals = block(sizeof *totals);
    if ((is_told(status) || status == DWFRAME_NO_FDE) &&
        (dwframe_changes_at(copy, index, indexed, address, again, changes_room, rules_again, room,
             totals, refusal) != status ||
            memcmp(again, changes, changes_room * sizeof *again) ||
            memcmp(rules_again, rules, room * sizeof *rules) ||
            memcmp(totals, needed, sizeof *totals)))
        stop_at("other rows by the index than by the section");
    give_back(before);
}

/* Where a damaged index leads, some rows are told or none. */
static void call_changes_at(const uint8_t *bytes, size_t len)
{
    size_t before = lents, changes_room = below(8), room = below(40);
    const dwframe_section *copy = given(bytes, len);
    dwframe_entry *index = block(entries * sizeof *index);
    size_t left = damage_index(index);
    dwframe_totals *needed = block(sizeof *needed);
    for (int times = 0; times < 4; times++) {
        size_t kept = lents;
        dwframe_change *changes = block(changes_room * sizeof *changes);
        dwframe_rule *rules = block(room * sizeof *rules);
        const dwframe_entry *entry = left ? &index[below(left)] : table;
        uint64_t address = below(8) ? entry->begin + below(entry->range) : number();
        dwframe_status status = judge(dwframe_changes_at(copy, index, left, address, changes,
            changes_room, rules, room, needed, refusal));
        int stays = status != DWFRAME_REFUSED && status != DWFRAME_OUT_OF_MEMORY;
        judge_totals(status, needed, changes, stays ? changes_room : 0, rules, stays ? room : 0);
        give_back(kept);
    }
    give_back(before);
}

/* ---- expressions: random bytes, and parts of the section */

static void call_evaluate(void)
{
    size_t before = lents, len = below(24);
    struct stopped m = some_machine(0);
    uint8_t *operations = block(len);
    uint64_t *value = block(sizeof *value);
    dwframe_context *context = block(sizeof *context);
    size_t from = below(section_len);
    for (size_t i = 0; i < len; i++)
        operations[i] = from + i < section_len && below(2) ? section[from + i] : (uint8_t)below(i % 3 ? 256 : 0xa0);
    *context = (dwframe_context){number(), number(), number(), number(), below(100), size, order, (uint8_t)below(3), (uint8_t)below(3),
        (uint8_t)below(3), (uint8_t)below(3), (uint32_t)number()};
    dwframe_status status = judge(dwframe_evaluate(operations, len, context, held(&m), value, refusal, m.fault));
    judge_fault(status, m.fault);
    if ((status == DWFRAME_NO_VALUE) != (m.fault->kind != 0) || m.fault->column || (status != DWFRAME_OK && *value))
        stop_at("a value or a fault without its status");
    if (status == DWFRAME_REFUSED && refusal->at > len)
        stop_at("a place behind the expression");
    give_back(before);
}

static void call_all(void)
{
    size_t before = lents, len;
    uint8_t *copy = damaged(&len);
    call_whole(copy, len);
    call_unwind(copy, len);
    call_unwind(section, section_len);
    call_unwind_at(copy, len);
    call_unwind_at(section, section_len);
    compare_unwound();
    unwind_live();
    call_rows_at(copy, len);
    call_rows_at(section, section_len);
    call_row_at(copy, len);
    call_row_at(section, section_len);
    call_changes(copy, len);
    call_changes(section, section_len);
    call_changes_at(copy, len);
    call_changes_at(section, section_len);
    call_evaluate();
    give_back(before);
}

int main(int argc, char **argv)
{
    static uint8_t bytes[BYTES];
    FILE *file = argc == 5 ? fopen(argv[3], "rb") : NULL;
    if (!file)
        stop_at("usage: damage SIZE ORDER FILE COUNT");
    section_len = fread(bytes, 1, sizeof bytes, file);
    fclose(file);
    section = memcpy(block(section_len), bytes, section_len);
    refusal = block(sizeof *refusal);
    uint32_t own_size = size = (uint32_t)atoi(argv[1]), own_order = order = !strcmp(argv[2], "big");
    make_index();
    for (unsigned long left = strtoul(argv[4], NULL, 10); left; left--) {
        size = left % 50 ? own_size : (uint32_t)below(10);
        order = left % 51 ? own_order : (uint32_t)below(3);
        call_all();
    }
    for (unsigned status = 0; status <= DWFRAME_BAD_INDEX; status++)
        printf("%s%u", status ? " " : "statuses 0 to 10: ", counts[status]);
    printf("\n");
    return 0;
}
