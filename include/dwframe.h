/*
 * dwframe.h: the proved reader of DWARF call frame information, for C and C++.
 *
 * A section is the raw contents of `.debug_frame` (DWARF 5, 6.4.1), decompressed, as `./section` of the repository or objcopy
 * takes them out of a file. Link with libdwframe.a, which `./library` builds: for Linux on x86-64, and processors that know x86-64-v2
 * (SSE4.2, POPCNT). The library has no call frame information of its own: a debugger or a profiler that stops inside one of its
 * calls does not find who made it.
 *
 * Every call but the three that tell a name answers a status. What it tells beside that it writes through pointers, at each call, also
 * where it fails: a number that it has no answer for is 0 then.
 *
 * What a caller keeps:
 *
 * - No pointer is null, also where its length or its room is 0, and also in a struct. dwframe_section_of and dwframe_machine_of
 *   take null with a length of 0, and DWFRAME_NOT_NULL makes of null a pointer that can be given with one.
 * - A pointer with a length, a count or a room behind it is to so many items of its type, one after another: bytes, addresses,
 *   entries, rules, rows, blocks, registers or windows. Together they have at most PTRDIFF_MAX bytes. A pointer without one is to
 *   one item. Each pointer is aligned as C aligns its type, also where there are no items.
 *   A `len` counts bytes and a `.._count` items that are given, a `.._room` those that fit where an answer is written. `needed` tells
 *   how many the answer has, also where the room is too short.
 * - `reserved` is 0 where the library writes it, and is not looked at where it reads it: let it be 0.
 * - What a call reads does not change while it runs, and what it writes is read and written by nobody else. So what it writes
 *   shares no byte with what it reads, nor with anything else that it writes.
 * - Memory comes from the program's malloc, realloc and free, and is given back before a call returns. A program that brings its
 *   own lets the three be of one allocator, and aligns each block for any type: to 16 bytes, or where 16 does not divide its size
 *   to the greatest power of two that does. No call is made in a signal handler, nor in the child of a fork of a process with
 *   threads, where these may not be called, but for dwframe_row_at and dwframe_unwind_at where they ask for no memory: where the
 *   rules up to the address are for registers below 128 and have no expression, at most four rows are remembered at once and at most
 *   64 registers change behind each, and the frame has at most 64 registers, all below 128. No clause says so: the requests are
 *   counted. Where malloc answers null, the status is DWFRAME_OUT_OF_MEMORY.
 * - There is stack, in KB at most: 4 for dwframe_evaluate, 15 for dwframe_row_at, dwframe_expressions_at and dwframe_changes_at, 18
 *   for dwframe_unwind_at, 26 for dwframe_check, dwframe_index_size, dwframe_index, dwframe_changes and dwframe_unwind, 31 for
 *   dwframe_rows_at, 38 for dwframe_normalise, 66 for dwframe_same, 1 for those that tell a name. This was measured (bench/stack.c)
 *   over tables of compilers, rules with expressions and rows that are remembered one above the other; no bound is proved.
 *
 * All else is answered: any bytes, any size, order, number and length of room have a status. No call keeps anything when it has
 * returned, so any number of threads may make calls at once.
 *
 * A DWARF number of a register is a uint16_t. A length, a count and a place in what is given is a size_t, but for the place in an
 * entry of an index, which is a uint32_t: a section has less than 2^31 bytes. What belongs to the machine that a section is of
 * (addresses, how many of them there are, values, steps) is a uint64_t.
 */
#ifndef DWFRAME_H
#define DWFRAME_H

#include <stddef.h>
#include <stdint.h>

#ifdef __cplusplus
extern "C" {
#endif

/* The version of this header, and of the library that goes with it. Until 1.0 each version may change names, structs and calls. */
#define DWFRAME_VERSION_MAJOR 0
#define DWFRAME_VERSION_MINOR 1
#define DWFRAME_VERSION_PATCH 0

/* A compiler that knows these attributes warns of a null pointer, and of a status that is not looked at. */
#if defined(__GNUC__)
#define DWFRAME_NONNULL __attribute__((nonnull))
#define DWFRAME_CALL __attribute__((nonnull, warn_unused_result))
#else
#define DWFRAME_NONNULL
#define DWFRAME_CALL
#endif

/* What a call answers. */
typedef uint32_t dwframe_status;
enum {
    /* The call has its answer. */
    DWFRAME_OK = 0,
    /* A section or an expression is refused; the refusal says why, and where. */
    DWFRAME_REFUSED = 1,
    /* malloc or realloc gave no memory. */
    DWFRAME_OUT_OF_MEMORY = 2,
    /* An address size other than 4 and 8, a byte order other than DWFRAME_LITTLE and DWFRAME_BIG, or another `unset` than
       DWFRAME_UNSET_UNCHANGED and DWFRAME_UNSET_UNDEFINED; or two sections of different sizes or orders. */
    DWFRAME_BAD_ARGUMENT = 3,
    /* The room that is lent is too short; the call tells how much it needs. */
    DWFRAME_TOO_SHORT = 4,
    /* No FDE covers the address. */
    DWFRAME_NO_FDE = 5,
    /* An expression has no value; the fault says why. */
    DWFRAME_NO_VALUE = 6,
    /* A register is saved in memory that no window has, or that passes the end of the address space. */
    DWFRAME_UNREADABLE = 7,
    /* A register that is asked for is not given. */
    DWFRAME_NO_REGISTER = 8,
    /* The memory failed. Windows never do. */
    DWFRAME_DEVICE = 9,
    /* The index is not the one of these bytes: no FDE that covers the address stands where its entry says. */
    DWFRAME_BAD_INDEX = 10
};

/* The order of the bytes of a number. */
enum { DWFRAME_LITTLE = 0, DWFRAME_BIG = 1 };

/* A section, and how its numbers are read. */
typedef struct dwframe_section {
    const uint8_t *bytes;
    size_t len;
    /* 4 or 8 (address_size of a CIE). */
    uint32_t address_size;
    /* DWFRAME_LITTLE or DWFRAME_BIG. */
    uint32_t byte_order;
} dwframe_section;

/* A pointer, or where it is null one that is not, to no items of its type: DWFRAME_NOT_NULL(uint8_t, vector.data()). */
#define DWFRAME_NOT_NULL(type, pointer) ((type *)dwframe_not_null(pointer))
static inline void *dwframe_not_null(const void *pointer)
{
    static uint64_t none;
    return pointer ? (void *)(uintptr_t)pointer : (void *)&none;
}

/* A section of `len` bytes. `bytes` may be null where `len` is 0. */
static inline dwframe_section dwframe_section_of(const uint8_t *bytes, size_t len, uint32_t address_size, uint32_t byte_order)
{
    dwframe_section section;
    section.bytes = DWFRAME_NOT_NULL(const uint8_t, bytes);
    section.len = len;
    section.address_size = address_size;
    section.byte_order = byte_order;
    return section;
}

/* What is wrong with a section or an expression. docs/REFUSALS.md says of each what it means, and which byte is named. */
enum {
    DWFRAME_REFUSAL_TRUNCATED = 1, DWFRAME_REFUSAL_RESERVED_LENGTH = 2, DWFRAME_REFUSAL_ENTRY_PAST_END = 3,
    DWFRAME_REFUSAL_BAD_VERSION = 4, DWFRAME_REFUSAL_AUGMENTATION = 5, DWFRAME_REFUSAL_ADDRESS_SIZE = 6,
    DWFRAME_REFUSAL_SEGMENT_SELECTOR = 7, DWFRAME_REFUSAL_NUMBER_TOO_LARGE = 8, DWFRAME_REFUSAL_REGISTER_TOO_LARGE = 9,
    DWFRAME_REFUSAL_NO_SUCH_CIE = 10, DWFRAME_REFUSAL_RANGE_TOO_LARGE = 11, DWFRAME_REFUSAL_UNKNOWN_INSTRUCTION = 12,
    DWFRAME_REFUSAL_NOT_IN_CIE = 13, DWFRAME_REFUSAL_LOCATION_BACKWARDS = 14, DWFRAME_REFUSAL_LOCATION_TOO_LARGE = 15,
    DWFRAME_REFUSAL_EMPTY_STATE_STACK = 16, DWFRAME_REFUSAL_STATE_STACK_FULL = 17,
    DWFRAME_REFUSAL_CFA_NOT_REGISTER = 18, DWFRAME_REFUSAL_OFFSET_TOO_LARGE = 19,
    DWFRAME_REFUSAL_UNKNOWN_OPERATION = 20, DWFRAME_REFUSAL_NOT_IN_FRAME = 21, DWFRAME_REFUSAL_BAD_BRANCH = 22,
    DWFRAME_REFUSAL_BAD_DEREF_SIZE = 23, DWFRAME_REFUSAL_NO_CFA_RULE = 24, DWFRAME_REFUSAL_OVERLAP = 25,
    DWFRAME_REFUSAL_SECTION_TOO_LARGE = 26, DWFRAME_REFUSAL_NORMAL_TOO_LONG = 27
};

/* Why a section or an expression is refused. All three are 0 where none is. */
typedef struct dwframe_refusal {
    /* One of DWFRAME_REFUSAL_TRUNCATED to DWFRAME_REFUSAL_NORMAL_TOO_LONG; dwframe_refusal_name has its name. */
    uint32_t code;
    /* Which section: 1, or 2 for the second of two. Of an expression 1. */
    uint32_t section;
    /* The place of the first bad byte, counted from the first one of the section or of the expression. */
    size_t at;
} dwframe_refusal;

/* How many common information entries (CIEs, whose CIE_id is all ones) and frame description entries (FDEs, each with the CIE_pointer
   of its CIE) a section has (DWARF 5, 6.4.1). */
typedef struct dwframe_counts {
    size_t cies;
    size_t fdes;
} dwframe_counts;

/* The room that each name of a status, a refusal or a fault fits into, with the zero byte behind it. */
#define DWFRAME_NAME_SIZE 20

/*
 * Judges a section. DWFRAME_OK where it is well formed: its entries and their fields, all programs, a rule for the CFA at each
 * address that an FDE covers, and no two FDEs that share an address. DWFRAME_REFUSED with its first fault where it is not.
 */
dwframe_status dwframe_check(const dwframe_section *section, dwframe_counts *counts, dwframe_refusal *refusal) DWFRAME_CALL;

/*
 * Writes the name of a refusal's code, as `EntryPastEnd`, and a zero byte behind it, where both fit into the `name_room`
 * bytes at `name`; else it writes nothing. Answers the length of the name without the zero byte, or 0 where no refusal has that code.
 */
size_t dwframe_refusal_name(uint32_t code, char *name, size_t name_room) DWFRAME_NONNULL;

/* The same of a status, as `TooShort`, and of the fault of an expression (DWFRAME_FAULT_..), as `StackUnderflow`. */
size_t dwframe_status_name(dwframe_status status, char *name, size_t name_room) DWFRAME_NONNULL;
size_t dwframe_fault_name(uint32_t kind, char *name, size_t name_room) DWFRAME_NONNULL;

/*
 * Writes the normal form of a section to the front of the `out_room` bytes at `out`, and its length to `needed`. Two sections
 * say the same exactly where their normal forms are equal. DWFRAME_TOO_SHORT, with the length, where `out_room` is less; `out` stays
 * then, and where the section is refused. A normal form above 2147483647 bytes is refused.
 */
dwframe_status dwframe_normalise(const dwframe_section *section, uint8_t *out, size_t out_room, size_t *needed,
    dwframe_refusal *refusal) DWFRAME_CALL;

/*
 * Whether two sections say the same: the same FDEs with the same return address registers, and the same rules at each address
 * that they cover. `alike` is 1 where they do, and 0 where they do not. Both have one address size and one byte order. A section
 * whose normal form is above 2147483647 bytes is refused. FDEs that cover no address say nothing.
 */
dwframe_status dwframe_same(const dwframe_section *first, const dwframe_section *second, uint32_t *alike,
    dwframe_refusal *refusal) DWFRAME_CALL;

/*
 * An entry of an index: an FDE's first address (initial_location), how many it covers (address_range), the place of its entry in
 * the section, and the number of the return address register (return_address_register of the CIE). 24 bytes, in the machine's own
 * order of bytes. An index is plain data: it may be stored, and read back by the same kind of machine.
 */
typedef struct dwframe_entry {
    uint64_t begin;
    uint64_t range;
    uint32_t at;
    uint16_t return_register;
} dwframe_entry;

/* Writes to `needed` how many entries the index of a section has: one for each FDE that covers an address. The section is judged. */
dwframe_status dwframe_index_size(const dwframe_section *section, size_t *needed, dwframe_refusal *refusal) DWFRAME_CALL;

/*
 * Writes the index of a section to the front of the `index_room` entries at `index`, ascending by begin, and how many there are to
 * `needed`. DWFRAME_TOO_SHORT, with their number, where `index_room` is less; `index` stays then, and where the section is refused.
 * A room of as many entries as dwframe_check counts FDEs always does.
 */
dwframe_status dwframe_index(const dwframe_section *section, dwframe_entry *index, size_t index_room, size_t *needed,
    dwframe_refusal *refusal) DWFRAME_CALL;

/* How a register of the caller is found (DWARF 5, 6.4.1). CFA is the canonical frame address. */
enum {
    /* It has no value (DW_CFA_undefined). */
    DWFRAME_RULE_UNDEFINED = 1,
    /* It has not been changed (DW_CFA_same_value). */
    DWFRAME_RULE_SAME_VALUE = 2,
    /* It is saved in memory at CFA plus `offset` (DW_CFA_offset). */
    DWFRAME_RULE_OFFSET = 3,
    /* It is CFA plus `offset` (DW_CFA_val_offset). */
    DWFRAME_RULE_VAL_OFFSET = 4,
    /* It is in the register `other` (DW_CFA_register). */
    DWFRAME_RULE_REGISTER = 5,
    /* It is saved in memory where an expression says (DW_CFA_expression), which dwframe_expressions_at tells. */
    DWFRAME_RULE_EXPRESSION = 6,
    /* It is the value of an expression (DW_CFA_val_expression), which dwframe_expressions_at tells. */
    DWFRAME_RULE_VAL_EXPRESSION = 7
};

/*
 * How the CFA is found (DWARF 5, 6.4.2.2): the register `cfa_register` plus `cfa_offset` (DW_CFA_def_cfa), or by an expression
 * (DW_CFA_def_cfa_expression). 0 where no instruction says it, which only a look-up by an index can tell, in bytes that dwframe_check
 * does not accept.
 */
enum { DWFRAME_CFA_REGISTER = 1, DWFRAME_CFA_EXPRESSION = 2 };

/* The rule of a register: its DWARF number and the kind. `other` and `offset` are 0 where the kind does not name them. Offsets are in
   bytes here, as everywhere: data_alignment_factor is multiplied out, and so is code_alignment_factor in addresses. */
typedef struct dwframe_rule {
    uint16_t number;
    uint16_t kind;
    uint16_t other;
    uint16_t reserved;
    int64_t offset;
} dwframe_rule;

/* The row of an address. All are 0 where there is none. */
typedef struct dwframe_row {
    /* The first address of its FDE (initial_location), and how many it covers (address_range). */
    uint64_t begin;
    uint64_t range;
    /* The offset of DW_CFA_def_cfa, in bytes. */
    int64_t cfa_offset;
    /* How many registers have a rule. */
    size_t count;
    /* DWFRAME_CFA_REGISTER, DWFRAME_CFA_EXPRESSION or 0. */
    uint32_t cfa_kind;
    /* The register of DW_CFA_def_cfa. */
    uint16_t cfa_register;
    /* The number of the register that holds the return address (return_address_register). */
    uint16_t return_register;
} dwframe_row;

/*
 * The rules at an address: the CFA's in `row`, and those of the registers at `rules`, ascending by number, as many as fit into
 * the `rules_room` there; DWFRAME_TOO_SHORT where there are more, and `row` says how many. A room of 0 asks for the CFA alone.
 * DWFRAME_NO_FDE where no entry of the index covers the address. The entry is found by halving, so in an index whose entries do not
 * ascend, or overlap, one that covers the address may be missed.
 *
 * The FDE at the entry's place, and the CIE that this names, are read and judged anew up to the row. By the index of these bytes,
 * which dwframe_index wrote, the rules are those of the section. Any other index does no harm: what stands
 * at the entry's place is told if it is an FDE that covers the address, and else DWFRAME_BAD_INDEX or DWFRAME_REFUSED is answered.
 */
dwframe_status dwframe_row_at(const dwframe_section *section, const dwframe_entry *index, size_t index_count, uint64_t address,
    dwframe_rule *rules, size_t rules_room, dwframe_row *row, dwframe_refusal *refusal) DWFRAME_CALL;

/*
 * The rows of many addresses in any order, as of a profile: the section is judged once, as dwframe_check does, and then each address is
 * looked up in it. It needs no index. For one address now and then dwframe_row_at costs less.
 *
 * `rows[i]` is the row of `addresses[i]`, whose `range` is 0 where no FDE covers it. The rules of the registers of all these rows stand
 * one after another at `rules`, `rows[i].count` for each, as many as fit into the `rules_room` there; DWFRAME_TOO_SHORT where there are
 * more. A room of 0 asks for the rows alone.
 *
 * `done` says how many rows are told: `address_count` with DWFRAME_OK, and with DWFRAME_TOO_SHORT where rules do not fit; with
 * DWFRAME_OUT_OF_MEMORY those before the address whose row needed it. With any other status it is 0, also with DWFRAME_TOO_SHORT
 * where `rows_room` is less than `address_count`. The rows behind the first `done` are left as they were.
 */
dwframe_status dwframe_rows_at(const dwframe_section *section, const uint64_t *addresses, size_t address_count, dwframe_row *rows,
    size_t rows_room, dwframe_rule *rules, size_t rules_room, size_t *done, dwframe_refusal *refusal) DWFRAME_CALL;

/* A row of an FDE, and the first address that has it: the begin of the FDE, or one at which a rule is not that one address before. The
   row holds up to the address of the next one, or to the end of the FDE. */
typedef struct dwframe_change {
    uint64_t address;
    dwframe_row row;
} dwframe_change;

/* How many rows an FDE has, and how many rules of registers they have together. Both are 0 where there is none. */
typedef struct dwframe_totals {
    size_t changes;
    size_t rules;
} dwframe_totals;

/*
 * The rows of the FDE that covers an address, one after another by address, as `dwframe rows` prints them. The section is judged, as
 * dwframe_check does, and the FDE's program is run once. DWFRAME_NO_FDE where no FDE covers the
 * address. If the rows of more than one FDE are wanted, dwframe_changes_at does not judge the section
 * each time.
 *
 * The rows are written to `changes`, and the rules of the registers of all of them one after another to `rules`, `changes[i].row.count`
 * for each, of both as many as fit. `needed` says how many there are. DWFRAME_TOO_SHORT where either room has less: then give so much room,
 * and ask again. With DWFRAME_OUT_OF_MEMORY `needed` is 0, and what both buffers hold is not said.
 */
dwframe_status dwframe_changes(const dwframe_section *section, uint64_t address, dwframe_change *changes, size_t changes_room,
    dwframe_rule *rules, size_t rules_room, dwframe_totals *needed, dwframe_refusal *refusal) DWFRAME_CALL;

/*
 * The same by an index of the section that the caller keeps (dwframe_index), at the cost of one run of
 * the FDE's program and of its CIE's: the section is not judged again. For all rows of a section make
 * this call for each entry of the index, with the entry's begin as `address`.
 *
 * By the index that dwframe_index wrote of these bytes it answers what dwframe_changes answers. Any
 * other index does no harm: it is used as dwframe_row_at uses it. What stands at the entry's place is
 * read and judged anew, both programs to their ends. A fault behind the end of the FDE is therefore
 * refused too. Rows that would begin there are not told. After DWFRAME_REFUSED and
 * DWFRAME_OUT_OF_MEMORY `needed` is 0, and both buffers hold anything.
 */
dwframe_status dwframe_changes_at(const dwframe_section *section, const dwframe_entry *index,
    size_t index_count, uint64_t address, dwframe_change *changes, size_t changes_room,
    dwframe_rule *rules, size_t rules_room, dwframe_totals *needed,
    dwframe_refusal *refusal) DWFRAME_CALL;

/* The column of the CFA, beside the numbers of registers. */
#define DWFRAME_COLUMN_CFA 65536

/* Where the block of an expression stands in a buffer. */
typedef struct dwframe_block {
    /* A register's number, or DWFRAME_COLUMN_CFA. */
    uint32_t column;
    uint32_t reserved;
    /* Its first byte, counted from the buffer's first one, and how many bytes it has. */
    size_t place;
    size_t len;
} dwframe_block;

/* How many expressions a row has, and how many bytes their blocks have together. Both are 0 where there is no row. */
typedef struct dwframe_blocks {
    size_t count;
    size_t len;
} dwframe_blocks;

/*
 * The expressions of the row at an address, of which dwframe_row_at tells the kinds: that of the CFA (DW_CFA_def_cfa_expression),
 * and then those of the registers (DW_CFA_expression, DW_CFA_val_expression), ascending by number. Each is a block of operations
 * (DWARF 5, 2.5 and 7.7.1) in the section's order of bytes: of all blocks that spell the expression's operations, the shortest,
 * and of those as short the one with the least codes. So two expressions have the same operations exactly where their blocks are equal.
 *
 * The blocks are written one after another to the front of the `expressions_room` bytes at `expressions`, and where each stands to the
 * front of the `blocks_room` entries at `blocks`; `needed` says how many there are of both. DWFRAME_TOO_SHORT where either has less room.
 * Both stay with each status but DWFRAME_OK. Rooms of 0 do for a row that has no expression. The index is taken as dwframe_row_at
 * takes it.
 */
dwframe_status dwframe_expressions_at(const dwframe_section *section, const dwframe_entry *index, size_t index_count,
    uint64_t address, uint8_t *expressions, size_t expressions_room, dwframe_block *blocks, size_t blocks_room,
    dwframe_blocks *needed, dwframe_refusal *refusal) DWFRAME_CALL;

/* What a register is taken as that no instruction has set: the ABI decides. */
enum { DWFRAME_UNSET_UNCHANGED = 0, DWFRAME_UNSET_UNDEFINED = 1 };

/* Where a machine stopped, and what is asked of it. */
typedef struct dwframe_stop {
    /* The address that is looked up. Of a caller's frame it is the return address minus one, which is in the call. Addresses of a
       section are those of its file: where the file is loaded elsewhere, `pc` is the program counter minus the load bias. */
    uint64_t pc;
    /* How many steps each expression may take. */
    uint64_t steps;
    /* DWFRAME_UNSET_UNCHANGED or DWFRAME_UNSET_UNDEFINED. */
    uint32_t unset;
    uint32_t reserved;
} dwframe_stop;

/* A register: its DWARF number, 1 where its value is known and 0 where it is not, and the value. */
typedef struct dwframe_register {
    uint16_t number;
    uint16_t known;
    uint32_t reserved;
    uint64_t value;
} dwframe_register;

/* `len` bytes of the machine's memory from `address` on. They stand in one buffer, from its byte `place` on. */
typedef struct dwframe_window {
    uint64_t address;
    size_t place;
    size_t len;
} dwframe_window;

/*
 * What a machine held: its registers, and windows over one buffer of its memory.
 *
 * If a register is given twice, its first known value is used. A byte of memory is that of the first window that covers its
 * address. Windows may come in any order. What lies past the buffer's end is not there.
 */
typedef struct dwframe_machine {
    const dwframe_register *registers;
    size_t register_count;
    const dwframe_window *windows;
    size_t window_count;
    const uint8_t *memory;
    size_t memory_len;
} dwframe_machine;

/* A machine that held this. Each pointer may be null where what stands behind it is 0. */
static inline dwframe_machine dwframe_machine_of(const dwframe_register *registers, size_t register_count, const dwframe_window *windows,
    size_t window_count, const uint8_t *memory, size_t memory_len)
{
    dwframe_machine machine;
    machine.registers = DWFRAME_NOT_NULL(const dwframe_register, registers);
    machine.register_count = register_count;
    machine.windows = DWFRAME_NOT_NULL(const dwframe_window, windows);
    machine.window_count = window_count;
    machine.memory = DWFRAME_NOT_NULL(const uint8_t, memory);
    machine.memory_len = memory_len;
    return machine;
}

/* A caller's frame. All are 0 where there is none. */
typedef struct dwframe_frame {
    /* The canonical frame address. */
    uint64_t cfa;
    /* How many registers it has. */
    size_t count;
    /* The number of the register that holds the return address (return_address_register). */
    uint16_t return_register;
    uint16_t reserved[3];
} dwframe_frame;

/* What is wrong with an expression: the stack has too few entries, division by zero, a register is not given, a byte of memory is
   missing, the memory failed, the steps are taken, nothing is left on the stack, a location and no value, no frame base, no CFA, no
   object address, a piece is missing. */
enum {
    DWFRAME_FAULT_STACK_UNDERFLOW = 1, DWFRAME_FAULT_DIVIDE_BY_ZERO = 2, DWFRAME_FAULT_NO_REGISTER = 3,
    DWFRAME_FAULT_UNREADABLE = 4, DWFRAME_FAULT_DEVICE = 5, DWFRAME_FAULT_STEP_LIMIT = 6,
    DWFRAME_FAULT_EMPTY_RESULT = 7, DWFRAME_FAULT_NOT_A_VALUE = 8, DWFRAME_FAULT_NO_FRAME_BASE = 9,
    DWFRAME_FAULT_NO_CFA = 10, DWFRAME_FAULT_NO_OBJECT = 11, DWFRAME_FAULT_MISSING_PIECE = 12
};

/* What is wrong in a column. All are 0 where nothing is. */
typedef struct dwframe_fault {
    /* A register's number, or DWFRAME_COLUMN_CFA. Of dwframe_evaluate it is 0. */
    uint32_t column;
    /* Of an expression: one of DWFRAME_FAULT_.. */
    uint16_t kind;
    /* Where a register is not given (DWFRAME_NO_REGISTER, DWFRAME_FAULT_NO_REGISTER): the DWARF number of the first one that was asked
       for and is not given. It may be 0, so the status and `kind` say whether a register is wanted. */
    uint16_t wanted;
    /* Of an expression: which operation, counted from 0, or how many there are for a fault at the end. */
    size_t index;
    /* Where a byte is missing (DWFRAME_UNREADABLE, DWFRAME_FAULT_UNREADABLE): the first address of the first read that failed, and how
       many bytes it asked for, 1 to 8. Where `address` plus `len` is above 2^N, N being the bits of an address, the read passes the end
       of the address space, and no window helps. */
    uint64_t address;
    size_t len;
} dwframe_fault;

/*
 * The caller's frame of a machine that stopped, by the rules of a section for the address `stop->pc`. The section is judged
 * first, as dwframe_check does.
 *
 * With DWFRAME_OK the first `frame->count` of the `out_room` registers at `out` are the caller's, ascending: each that is given,
 * that the rules name, or that holds the return address. What leads from one frame to the next is the ABI's: the stack pointer is
 * the CFA, and the pc is the value of the return address register. With DWFRAME_TOO_SHORT the frame is told, and `out` stays; with any
 * other status `out` stays, and the refusal or the fault says why.
 *
 * The number that DW_OP_addr pushes is taken as it stands in the section: no load bias is added to it.
 */
dwframe_status dwframe_unwind(const dwframe_section *section, const dwframe_stop *stop, const dwframe_machine *machine,
    dwframe_register *out, size_t out_room, dwframe_frame *frame, dwframe_refusal *refusal, dwframe_fault *fault) DWFRAME_CALL;

/*
 * The same by an index of the section that is kept (dwframe_index), at the cost of a look-up: the section is not judged again. With the
 * index which dwframe_index wrote of these bytes it tells what dwframe_unwind tells. Any other index does no harm: what stands where
 * it leads is read and judged anew, and DWFRAME_BAD_INDEX says that no FDE which covers the address stands there, or that the CFA has
 * no rule there.
 *
 * So live memory can be read as it is wanted, which may begin with no window. Where the fault names an address and a length, read these
 * bytes, or more around them, give them as one window more at the end of the windows, and ask again; where it names a register that
 * the machine has, give that. What is given is not wanted twice, and each expression takes at most `stop->steps` steps, so this ends:
 * with the frame, with another status, or with what cannot be read. A read that passes the end of the address space never can be.
 * examples/frames.c has this loop. Registers are best given all at the start: one that no rule asks for is not wanted, and where it is
 * not given the caller's frame does not have it.
 */
dwframe_status dwframe_unwind_at(const dwframe_section *section, const dwframe_entry *index, size_t index_count,
    const dwframe_stop *stop, const dwframe_machine *machine, dwframe_register *out, size_t out_room, dwframe_frame *frame,
    dwframe_refusal *refusal, dwframe_fault *fault) DWFRAME_CALL;

/* What the stack of an expression begins with, and what it may ask for beside registers and memory (DWARF 5, 2.5.1). Each of the
   first four counts where the number that is named after it is not 0, and is taken modulo 2^N, N being the bits of an address. */
typedef struct dwframe_context {
    /* What the stack begins with, or it begins empty (has_start). */
    uint64_t start;
    /* The frame base, which DW_OP_fbreg asks for (has_frame_base). */
    uint64_t frame_base;
    /* The canonical frame address, which DW_OP_call_frame_cfa asks for (has_cfa). */
    uint64_t cfa;
    /* The object's address, which DW_OP_push_object_address asks for (has_object). */
    uint64_t object;
    /* How many operations may be executed, those of a loop counted each time. */
    uint64_t steps;
    /* 4 or 8. */
    uint32_t address_size;
    /* DWFRAME_LITTLE or DWFRAME_BIG. */
    uint32_t byte_order;
    uint8_t has_start;
    uint8_t has_frame_base;
    uint8_t has_cfa;
    uint8_t has_object;
    uint32_t reserved;
} dwframe_context;

/*
 * The value of an expression by itself (DWARF 5, 2.5), over the registers and the memory of a machine: what is on top of the
 * stack at its end, below 2^N. The expression is a block of `len` bytes, which may have all operations that a location description
 * has; one that describes a place (DW_OP_reg0, DW_OP_piece, DW_OP_stack_value and those like these) has no value.
 *
 * With DWFRAME_REFUSED the refusal says what is wrong with the block. With DWFRAME_NO_VALUE the fault says at which operation there is
 * none and why, and which byte or register was wanted, so that it can be given and asked again, as with dwframe_unwind_at. `value` is 0
 * with each status but DWFRAME_OK. The number that DW_OP_addr pushes is taken as it stands: no load bias is added to it.
 */
dwframe_status dwframe_evaluate(const uint8_t *block, size_t len, const dwframe_context *context, const dwframe_machine *machine,
    uint64_t *value, dwframe_refusal *refusal, dwframe_fault *fault) DWFRAME_CALL;

/* The sizes and places that the library was built with, for compilers that can check them. */
#if defined(__cplusplus) && __cplusplus >= 201103L
#define DWFRAME_ASSERT(what, text) static_assert(what, text)
#elif !defined(__cplusplus) && defined(__STDC_VERSION__) && __STDC_VERSION__ >= 201112L
#define DWFRAME_ASSERT(what, text) _Static_assert(what, text)
#endif
#ifdef DWFRAME_ASSERT
#define DWFRAME_HAS_SIZE(type, size) DWFRAME_ASSERT(sizeof(type) == size, "libdwframe.a has another size of " #type)
#define DWFRAME_HAS_PLACE(type, field, place) \
    DWFRAME_ASSERT(offsetof(type, field) == place, "libdwframe.a has another place of " #field " in " #type)
DWFRAME_HAS_SIZE(dwframe_section, 24);
DWFRAME_HAS_PLACE(dwframe_section, len, 8);
DWFRAME_HAS_PLACE(dwframe_section, address_size, 16);
DWFRAME_HAS_PLACE(dwframe_section, byte_order, 20);
DWFRAME_HAS_SIZE(dwframe_refusal, 16);
DWFRAME_HAS_PLACE(dwframe_refusal, section, 4);
DWFRAME_HAS_PLACE(dwframe_refusal, at, 8);
DWFRAME_HAS_SIZE(dwframe_counts, 16);
DWFRAME_HAS_PLACE(dwframe_counts, fdes, 8);
DWFRAME_HAS_SIZE(dwframe_entry, 24);
DWFRAME_HAS_PLACE(dwframe_entry, range, 8);
DWFRAME_HAS_PLACE(dwframe_entry, at, 16);
DWFRAME_HAS_PLACE(dwframe_entry, return_register, 20);
DWFRAME_HAS_SIZE(dwframe_rule, 16);
DWFRAME_HAS_PLACE(dwframe_rule, kind, 2);
DWFRAME_HAS_PLACE(dwframe_rule, other, 4);
DWFRAME_HAS_PLACE(dwframe_rule, reserved, 6);
DWFRAME_HAS_PLACE(dwframe_rule, offset, 8);
DWFRAME_HAS_SIZE(dwframe_row, 40);
DWFRAME_HAS_PLACE(dwframe_row, range, 8);
DWFRAME_HAS_PLACE(dwframe_row, cfa_offset, 16);
DWFRAME_HAS_PLACE(dwframe_row, count, 24);
DWFRAME_HAS_PLACE(dwframe_row, cfa_kind, 32);
DWFRAME_HAS_PLACE(dwframe_row, cfa_register, 36);
DWFRAME_HAS_PLACE(dwframe_row, return_register, 38);
DWFRAME_HAS_SIZE(dwframe_change, 48);
DWFRAME_HAS_PLACE(dwframe_change, row, 8);
DWFRAME_HAS_SIZE(dwframe_totals, 16);
DWFRAME_HAS_PLACE(dwframe_totals, rules, 8);
DWFRAME_HAS_SIZE(dwframe_block, 24);
DWFRAME_HAS_PLACE(dwframe_block, reserved, 4);
DWFRAME_HAS_PLACE(dwframe_block, place, 8);
DWFRAME_HAS_PLACE(dwframe_block, len, 16);
DWFRAME_HAS_SIZE(dwframe_blocks, 16);
DWFRAME_HAS_PLACE(dwframe_blocks, len, 8);
DWFRAME_HAS_SIZE(dwframe_stop, 24);
DWFRAME_HAS_PLACE(dwframe_stop, steps, 8);
DWFRAME_HAS_PLACE(dwframe_stop, unset, 16);
DWFRAME_HAS_PLACE(dwframe_stop, reserved, 20);
DWFRAME_HAS_SIZE(dwframe_register, 16);
DWFRAME_HAS_PLACE(dwframe_register, known, 2);
DWFRAME_HAS_PLACE(dwframe_register, reserved, 4);
DWFRAME_HAS_PLACE(dwframe_register, value, 8);
DWFRAME_HAS_SIZE(dwframe_window, 24);
DWFRAME_HAS_PLACE(dwframe_window, place, 8);
DWFRAME_HAS_PLACE(dwframe_window, len, 16);
DWFRAME_HAS_SIZE(dwframe_machine, 48);
DWFRAME_HAS_PLACE(dwframe_machine, register_count, 8);
DWFRAME_HAS_PLACE(dwframe_machine, windows, 16);
DWFRAME_HAS_PLACE(dwframe_machine, window_count, 24);
DWFRAME_HAS_PLACE(dwframe_machine, memory, 32);
DWFRAME_HAS_PLACE(dwframe_machine, memory_len, 40);
DWFRAME_HAS_SIZE(dwframe_frame, 24);
DWFRAME_HAS_PLACE(dwframe_frame, count, 8);
DWFRAME_HAS_PLACE(dwframe_frame, return_register, 16);
DWFRAME_HAS_PLACE(dwframe_frame, reserved, 18);
DWFRAME_HAS_SIZE(dwframe_fault, 32);
DWFRAME_HAS_PLACE(dwframe_fault, kind, 4);
DWFRAME_HAS_PLACE(dwframe_fault, wanted, 6);
DWFRAME_HAS_PLACE(dwframe_fault, index, 8);
DWFRAME_HAS_PLACE(dwframe_fault, address, 16);
DWFRAME_HAS_PLACE(dwframe_fault, len, 24);
DWFRAME_HAS_SIZE(dwframe_context, 56);
DWFRAME_HAS_PLACE(dwframe_context, frame_base, 8);
DWFRAME_HAS_PLACE(dwframe_context, cfa, 16);
DWFRAME_HAS_PLACE(dwframe_context, object, 24);
DWFRAME_HAS_PLACE(dwframe_context, steps, 32);
DWFRAME_HAS_PLACE(dwframe_context, address_size, 40);
DWFRAME_HAS_PLACE(dwframe_context, byte_order, 44);
DWFRAME_HAS_PLACE(dwframe_context, has_start, 48);
DWFRAME_HAS_PLACE(dwframe_context, has_frame_base, 49);
DWFRAME_HAS_PLACE(dwframe_context, has_cfa, 50);
DWFRAME_HAS_PLACE(dwframe_context, has_object, 51);
DWFRAME_HAS_PLACE(dwframe_context, reserved, 52);
#undef DWFRAME_HAS_SIZE
#undef DWFRAME_HAS_PLACE
#undef DWFRAME_ASSERT
#endif

#ifdef __cplusplus
}
#endif
#endif
