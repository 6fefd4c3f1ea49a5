/* Reads a core file, and the files that were mapped. Nothing that they say is trusted: each place and length is compared with the bytes
 * that are there, and what makes no sense is left out. */
#define _POSIX_C_SOURCE 200809L
#include <stdarg.h>
#include <stdio.h>
#include <stdlib.h>
#include <string.h>
#include <sys/stat.h>

#include "core_file.h"

enum {
    /* How often bytes are fetched from the files that were mapped, and how many at once. */
    FETCHES = 4096,
    FETCHED = 8,
    /* So much of a file is compared with what was mapped: the headers, and the build ID behind them. */
    COMPARED = 1024
};

_Noreturn void fail(int status, const char *format, ...)
{
    va_list rest;
    va_start(rest, format);
    vfprintf(stderr, format, rest);
    va_end(rest);
    fputc('\n', stderr);
    exit(status);
}

void *allocated(void *memory)
{
    if (!memory)
        fail(5, "out of memory");
    return memory;
}

/* An array with room for one item more. The room doubles where the count is a power of two. */
static void *grown(void *items, size_t count, size_t size)
{
    return count & (count - 1) ? items : allocated(realloc(items, (count ? 2 * count : 1) * size));
}

/* ---- bytes, and ELF */

int copy(struct bytes from, uint64_t place, void *to, size_t size)
{
    if (place > from.len || size > from.len - place)
        return 0;
    memcpy(to, from.at + place, size);
    return 1;
}

/* The `len` bytes from `place` on, or as many of them as are there. */
static struct bytes part(struct bytes of, uint64_t place, uint64_t len)
{
    size_t begin = place < of.len ? (size_t)place : of.len, rest = of.len - begin;
    return (struct bytes){of.at + begin, len < rest ? (size_t)len : rest};
}

/* The bytes of a file, in a buffer with `room` behind them, or no buffer where it cannot be read. A core file may name a pipe or a device,
   and these are not opened. */
static struct bytes load(const char *path, size_t room)
{
    struct stat status;
    FILE *file = stat(path, &status) == 0 && S_ISREG(status.st_mode) ? fopen(path, "rb") : NULL;
    if (!file)
        return (struct bytes){NULL, 0};
    uint8_t *bytes = allocated(malloc((size_t)status.st_size + room + 1));
    size_t len = fread(bytes, 1, (size_t)status.st_size, file);
    fclose(file);
    return (struct bytes){bytes, len};
}

static int read_section(const struct elf *elf, size_t number, Elf64_Shdr *section)
{
    return elf->header.e_shentsize == sizeof *section
        && copy(elf->file, elf->header.e_shoff + number * sizeof *section, section, sizeof *section);
}

/* Reads the header. Answers whether the file is of 64 bits and little-endian. */
static int read_elf(struct elf *elf)
{
    Elf64_Shdr first;
    const Elf64_Ehdr *header = &elf->header;
    if (!copy(elf->file, 0, &elf->header, sizeof elf->header) || memcmp(header->e_ident, ELFMAG, SELFMAG) != 0)
        return 0;
    elf->segments = header->e_phnum;
    if (header->e_phnum == PN_XNUM && read_section(elf, 0, &first))
        elf->segments = first.sh_info;
    return header->e_ident[EI_CLASS] == ELFCLASS64 && header->e_ident[EI_DATA] == ELFDATA2LSB
        && header->e_phentsize == sizeof(Elf64_Phdr);
}

/* The next segment of a type, from number `*at` on. */
static int next_segment(const struct elf *elf, uint32_t type, size_t *at, Elf64_Phdr *segment)
{
    while (*at < elf->segments && copy(elf->file, elf->header.e_phoff + *at * sizeof *segment, segment, sizeof *segment)) {
        ++*at;
        if (segment->p_type == type)
            return 1;
    }
    return 0;
}

/* The section of a name. */
static int find_section(const struct elf *elf, const char *name, Elf64_Shdr *section)
{
    Elf64_Shdr names;
    size_t size = strlen(name) + 1;
    if (!read_section(elf, elf->header.e_shstrndx, &names))
        return 0;
    for (size_t i = 0; i < elf->header.e_shnum && read_section(elf, i, section); i++) {
        struct bytes found = part(elf->file, names.sh_offset + section->sh_name, size);
        if (found.len == size && memcmp(found.at, name, size) == 0)
            return 1;
    }
    return 0;
}

/* ---- memory */

/* The window that has an address. */
static dwframe_window *window_at(const struct core *core, uint64_t address)
{
    for (size_t i = 0; i < core->window_count; i++) {
        dwframe_window *window = &core->windows[i];
        if (address - window->address < window->len)
            return window;
    }
    return NULL;
}

struct bytes memory_at(const struct core *core, uint64_t address, uint64_t len)
{
    const dwframe_window *window = window_at(core, address);
    if (!window)
        return (struct bytes){NULL, 0};
    uint64_t before = address - window->address, rest = window->len - before;
    return part((struct bytes){core->memory, core->memory_len}, window->place + before, len < rest ? len : rest);
}

void put_first(struct core *core, uint64_t address)
{
    dwframe_window *window = window_at(core, address);
    if (window) {
        dwframe_window first = core->windows[0];
        core->windows[0] = *window;
        *window = first;
    }
}

static void add_window(struct core *core, uint64_t address, size_t place, size_t len)
{
    core->windows = grown(core->windows, core->window_count, sizeof *core->windows);
    core->windows[core->window_count++] = (dwframe_window){.address = address, .place = place, .len = len};
}

/* A segment has p_memsz addresses, and the file p_filesz bytes of it: it may have none. */
int was_mapped(const struct core *core, uint64_t address)
{
    Elf64_Phdr segment;
    for (size_t i = 0; next_segment(&core->elf, PT_LOAD, &i, &segment);) {
        if (address - segment.p_vaddr < segment.p_memsz)
            return 1;
    }
    return 0;
}

/* ---- notes */

/* Where pr_pid and pr_reg stand in struct elf_prstatus of a processor of 64 bits. */
enum { PR_PID = 32, PR_REG = 112 };

static void add_thread(struct core *core, struct bytes status)
{
    struct thread thread = {.registers = part(status, PR_REG, status.len)};
    if (!copy(status, PR_PID, &thread.id, sizeof thread.id))
        return;
    core->threads = grown(core->threads, core->thread_count, sizeof thread);
    core->threads[core->thread_count++] = thread;
}

static void take_note(struct core *core, uint32_t type, struct bytes contents)
{
    switch (type) {
    case NT_PRSTATUS:
        add_thread(core, contents);
        break;
    case NT_AUXV:
        core->auxiliary = contents;
        break;
    case NT_FILE:
        core->mapped = contents;
        break;
    case NT_ARM_PAC_MASK:
        /* The mask of addresses of data, and that of addresses of instructions. */
        copy(contents, sizeof core->signature, &core->signature, sizeof core->signature);
        break;
    }
}

static uint64_t padded(uint32_t size)
{
    return ((uint64_t)size + 3) & ~UINT64_C(3);
}

static void take_notes(struct core *core, struct bytes notes)
{
    Elf64_Nhdr header;
    for (uint64_t at = 0; copy(notes, at, &header, sizeof header); at += padded(header.n_descsz)) {
        at += sizeof header + padded(header.n_namesz);
        take_note(core, header.n_type, part(notes, at, header.n_descsz));
    }
}

/* ---- the files that were mapped */

const struct module *module_at(const struct core *core, uint64_t address)
{
    for (size_t i = 0; i < core->module_count; i++) {
        const struct module *module = &core->modules[i];
        if (module->begin <= address && address < module->end)
            return module;
    }
    return NULL;
}

static void add_module(struct core *core, const struct module *module)
{
    core->modules = grown(core->modules, core->module_count, sizeof *module);
    core->modules[core->module_count++] = *module;
}

static void lack(struct module *module, const char *what)
{
    snprintf(module->lacks, sizeof module->lacks, "%s", what);
}

static void find_limits(struct module *module)
{
    Elf64_Phdr segment;
    module->begin = UINT64_MAX;
    module->end = 0;
    for (size_t i = 0; next_segment(&module->elf, PT_LOAD, &i, &segment);) {
        uint64_t begin = module->bias + segment.p_vaddr, end = begin + segment.p_memsz;
        if (begin < module->begin)
            module->begin = begin;
        if (end > module->end)
            module->end = end;
    }
}

static void find_table(struct module *module)
{
    Elf64_Shdr section;
    if (!find_section(&module->elf, ".debug_frame", &section))
        lack(module, "the file has no .debug_frame");
    else if (section.sh_type != SHT_PROGBITS || section.sh_flags & SHF_COMPRESSED)
        lack(module, "the file's .debug_frame is compressed");
    else
        module->table = part(module->elf.file, section.sh_offset, section.sh_size);
}

/* Whether the file is still the one that was mapped, as far as the core file has the begin of its first segment. */
static int is_as_mapped(const struct core *core, const struct module *module)
{
    Elf64_Phdr segment;
    size_t first = 0;
    if (!next_segment(&module->elf, PT_LOAD, &first, &segment))
        return 1;
    struct bytes now = part(module->elf.file, segment.p_offset, segment.p_filesz < COMPARED ? segment.p_filesz : COMPARED);
    struct bytes then = memory_at(core, module->bias + segment.p_vaddr, now.len);
    return then.len == 0 || memcmp(now.at, then.at, then.len) == 0;
}

/* Reads an ELF file whose bias is known. Of one that is another now no byte is used. */
static void read_module(const struct core *core, struct module *module)
{
    find_limits(module);
    if (is_as_mapped(core, module)) {
        find_table(module);
    } else {
        lack(module, "the file is not the one that was mapped");
        module->elf.segments = 0;
    }
}

static int is_of_processor(struct elf *elf, const struct core *core)
{
    return read_elf(elf) && elf->header.e_machine == core->elf.header.e_machine;
}

/* The program: the auxiliary vector says where its entry was loaded. */
static void add_program(struct core *core, const char *path)
{
    Elf64_auxv_t item = {0};
    struct module module = {.path = path, .elf.file = load(path, 0)};
    if (!module.elf.file.at)
        fail(4, "cannot read %s", path);
    if (!is_of_processor(&module.elf, core))
        fail(2, "%s is not an ELF file of the core file's processor", path);
    for (size_t i = 0; item.a_type != AT_ENTRY; i++) {
        if (!copy(core->auxiliary, i * sizeof item, &item, sizeof item))
            fail(2, "the core file does not say where the program was loaded");
    }
    module.bias = item.a_un.a_val - module.elf.header.e_entry;
    read_module(core, &module);
    add_module(core, &module);
}

/* A part of a file that was mapped: its addresses, and the number of its first page in the file. */
struct mapping {
    uint64_t begin, end, page;
};

/* The bias of a file, from the first segment that begins in a part of it that was mapped. */
static int find_bias(struct module *module, const struct mapping *mapping, uint64_t offset)
{
    Elf64_Phdr segment;
    for (size_t i = 0; next_segment(&module->elf, PT_LOAD, &i, &segment);) {
        if (segment.p_offset - offset < mapping->end - mapping->begin) {
            module->bias = mapping->begin + (segment.p_offset - offset) - segment.p_vaddr;
            return 1;
        }
    }
    return 0;
}

/* A file by a part that was mapped. What is no ELF file, or is not there any more, has the addresses of the part. */
static void add_mapped(struct core *core, const char *path, const struct mapping *mapping, uint64_t page_size)
{
    uint64_t offset = mapping->page * page_size;
    struct module module = {.path = path, .elf.file = load(path, 0), .begin = mapping->begin, .end = mapping->end};
    module.bias = mapping->begin - offset;
    if (!module.elf.file.at)
        lack(&module, "the file cannot be read");
    else if (is_of_processor(&module.elf, core) && find_bias(&module, mapping, offset))
        read_module(core, &module);
    else
        lack(&module, "the file is not an ELF file that was loaded there");
    add_module(core, &module);
}

/* NT_FILE: how many parts there are, the size of a page, the parts, and the path of each, with a zero byte behind it. A part whose addresses
   are known already is of a file that was added. */
static void add_all_mapped(struct core *core)
{
    uint64_t head[2];
    struct mapping mapping;
    if (!copy(core->mapped, 0, head, sizeof head) || head[0] > core->mapped.len / sizeof mapping)
        return;
    struct bytes names = part(core->mapped, sizeof head + head[0] * sizeof mapping, core->mapped.len);
    for (uint64_t i = 0; i < head[0] && copy(core->mapped, sizeof head + i * sizeof mapping, &mapping, sizeof mapping); i++) {
        const uint8_t *end = memchr(names.at, 0, names.len);
        if (!end)
            return;
        if (!module_at(core, mapping.begin))
            add_mapped(core, (const char *)names.at, &mapping, head[1]);
        names = part(names, (uint64_t)(end - names.at) + 1, names.len);
    }
}

/* The bytes of a module at an address of a segment that is not written to, or none. */
static struct bytes constant_at(const struct module *module, uint64_t address, uint64_t len)
{
    Elf64_Phdr segment;
    for (size_t i = 0; next_segment(&module->elf, PT_LOAD, &i, &segment);) {
        uint64_t before = address - module->bias - segment.p_vaddr;
        if (!(segment.p_flags & PF_W) && before < segment.p_filesz && len <= segment.p_filesz - before)
            return part(module->elf.file, segment.p_offset + before, len);
    }
    return (struct bytes){NULL, 0};
}

int fetch(struct core *core, uint64_t address, size_t len)
{
    const struct module *module = module_at(core, address);
    if (!module || core->fetches == FETCHES || len > FETCHED)
        return 0;
    struct bytes found = constant_at(module, address, len);
    if (found.len < len)
        return 0;
    memcpy(core->memory + core->memory_len, found.at, found.len);
    add_window(core, address, core->memory_len, len);
    core->memory_len += len;
    core->fetches++;
    return 1;
}

/* ---- all of it */

void read_core(struct core *core, const char *program, const char *path)
{
    Elf64_Phdr segment;
    core->elf.file = load(path, FETCHES * FETCHED);
    core->memory = (uint8_t *)core->elf.file.at;
    core->memory_len = core->elf.file.len;
    if (!core->memory)
        fail(4, "cannot read %s", path);
    if (!read_elf(&core->elf) || core->elf.header.e_type != ET_CORE)
        fail(2, "%s is not a core file of 64 bits, little-endian", path);
    for (size_t i = 0; next_segment(&core->elf, PT_LOAD, &i, &segment);)
        add_window(core, segment.p_vaddr, segment.p_offset, segment.p_filesz);
    for (size_t i = 0; next_segment(&core->elf, PT_NOTE, &i, &segment);)
        take_notes(core, part(core->elf.file, segment.p_offset, segment.p_filesz));
    add_program(core, program);
    add_all_mapped(core);
}

void release_core(struct core *core)
{
    for (size_t i = 0; i < core->module_count; i++) {
        free((void *)core->modules[i].elf.file.at);
        free(core->modules[i].index);
    }
    free(core->modules);
    free(core->threads);
    free(core->windows);
    free(core->memory);
}
