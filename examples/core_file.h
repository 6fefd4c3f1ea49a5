/* What examples/core.c knows of a program that stopped: its threads, its memory and the files that were mapped.
 *
 * A core file is an ELF file. Its notes (PT_NOTE) are the registers of each thread (NT_PRSTATUS), the auxiliary vector (NT_AUXV), which
 * says where the program was loaded, and the parts of files that were mapped (NT_FILE). Its segments (PT_LOAD) are the memory, but for
 * what stands unchanged in those files. */
#ifndef CORE_FILE_H
#define CORE_FILE_H

#include <elf.h>
#include <stddef.h>
#include <stdint.h>

#include "dwframe.h"

struct bytes {
    const uint8_t *at;
    size_t len;
};

/* An ELF file of 64 bits, little-endian. */
struct elf {
    struct bytes file;
    Elf64_Ehdr header;
    size_t segments;
};

/* A file that was mapped. Its addresses in memory are `bias` more than in the file. */
struct module {
    const char *path;
    struct elf elf;
    uint64_t bias, begin, end;
    /* The section .debug_frame, where it stands and as the library takes it, and its index. */
    struct bytes table;
    dwframe_section section;
    dwframe_entry *index;
    size_t entries;
    /* Why there is no index, or nothing. */
    char lacks[64];
};

/* A thread: its number, and the words of pr_reg. */
struct thread {
    int32_t id;
    struct bytes registers;
};

struct core {
    struct elf elf;
    /* The bytes of the core file and, behind them in the same buffer, those that were fetched from other files; and windows over it. */
    uint8_t *memory;
    size_t memory_len, fetches;
    dwframe_window *windows;
    size_t window_count;
    struct thread *threads;
    size_t thread_count;
    struct module *modules;
    size_t module_count;
    /* NT_AUXV, NT_FILE, and of NT_ARM_PAC_MASK the bits of a return address that may sign it. */
    struct bytes auxiliary, mapped;
    uint64_t signature;
};

/* Ends the program with a status and a line on standard error. */
_Noreturn void fail(int status, const char *format, ...);

/* The memory, if there was enough. */
void *allocated(void *memory);

/* Reads a core file, the program that stopped and all files that were mapped. */
void read_core(struct core *core, const char *program, const char *path);

/* Gives back what they took. */
void release_core(struct core *core);

/* Copies `size` bytes from `place` on. Answers whether they are there. */
int copy(struct bytes from, uint64_t place, void *to, size_t size);

/* The module that an address is in, or NULL. */
const struct module *module_at(const struct core *core, uint64_t address);

/* Whether an address was mapped at all. */
int was_mapped(const struct core *core, uint64_t address);

/* The bytes from an address on, at most `len`, as many as one window has. */
struct bytes memory_at(const struct core *core, uint64_t address, uint64_t len);

/* Puts the window that has an address before the others: the library looks through them in their order. */
void put_first(struct core *core, uint64_t address);

/* Adds a window of bytes that none has, from the file that was mapped there. Answers whether it has them. */
int fetch(struct core *core, uint64_t address, size_t len);

#endif
