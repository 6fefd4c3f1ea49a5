// What damaged calls share: random numbers, pages whose ends cannot be crossed, and damaged copies of a
// section.
#ifndef DAMAGE_H
#define DAMAGE_H

#include <stdio.h>
#include <stdlib.h>
#include <string.h>
#include <sys/mman.h>
#include <unistd.h>
#include "dwframe.h"

static uint64_t state = 0x9e3779b97f4a7c15;

static uint64_t number(void)
{
    state ^= state >> 12;
    state ^= state << 25;
    state ^= state >> 27;
    return state * 0x2545f4914f6cdd1d;
}

static uint64_t below(uint64_t limit)
{
    return limit ? number() % limit : 0;
}

static void stop_at(const char *why)
{
    fprintf(stderr, "damage: %s\n", why);
    exit(1);
}

static unsigned counts[DWFRAME_BAD_INDEX + 1];
static dwframe_refusal *refusal;

static dwframe_status judge(dwframe_status status)
{
    char name[DWFRAME_NAME_SIZE];
    if (status > DWFRAME_BAD_INDEX)
        stop_at("a status that the header does not name");
    if ((status == DWFRAME_REFUSED) != (refusal->code != 0))
        stop_at("a refusal without its status");
    if (status == DWFRAME_REFUSED && dwframe_refusal_name(refusal->code, name, sizeof name) != strlen(name))
        stop_at("a code without a name");
    counts[status]++;
    return status;
}

/* ---- what is lent: pages between two that cannot be reached */

/* What is in a room before a call. */
enum { FILLED = 0xa5 };

/* Each is lent again and again, last out first in, and made anew where it is too short. */
static struct {
    uint8_t *pages;
    size_t room;
} lent[32];
static size_t lents;

static void make_pages(size_t which, size_t len)
{
    size_t page = (size_t)sysconf(_SC_PAGESIZE), room = (len / page + 1) * page;
    uint8_t *pages = mmap(NULL, room + 2 * page, PROT_NONE, MAP_PRIVATE | MAP_ANONYMOUS, -1, 0);
    if (pages == MAP_FAILED || mprotect(pages + page, room, PROT_READ | PROT_WRITE))
        stop_at("out of memory");
    lent[which].pages = pages + page;
    lent[which].room = room;
}

/* So many bytes that end where a page does, or some times begin where one does: `len` is a multiple of what they are aligned to. */
static void *block(size_t len)
{
    if (lents == sizeof lent / sizeof *lent)
        stop_at("too much is lent");
    size_t which = lents++;
    if (lent[which].room < len || !lent[which].pages)
        make_pages(which, len);
    return memset(lent[which].pages + (below(4) ? lent[which].room - len : 0), FILLED, len);
}

/* Takes back what was lent since there were so many. */
static void give_back(size_t before)
{
    lents = before;
}

/* A room that has to stay as `block` filled it. */
static void has_stayed(const void *room, size_t len)
{
    for (const uint8_t *byte = room; len; len--)
        if (*byte++ != FILLED)
            stop_at("what has to stay was written to");
}

/* ---- the section, its index, and its copies */

/* A rule takes two bytes at least. */
enum { BYTES = 1 << 16, RULES = BYTES / 2 };

static const uint8_t *section;
static size_t section_len, entries;
static dwframe_entry *table;
static uint32_t size, order, table_size, table_order;

/* These bytes as the calls take them. */
static const dwframe_section *given(const uint8_t *bytes, size_t len)
{
    dwframe_section *lent_section = block(sizeof *lent_section);
    *lent_section = (dwframe_section){bytes, len, size, order};
    return lent_section;
}

static void make_index(void)
{
    size_t *count = block(sizeof *count);
    const dwframe_section *whole = given(section, section_len);
    if (dwframe_index_size(whole, count, refusal))
        stop_at("the section is refused");
    entries = *count;
    table_size = size;
    table_order = order;
    table = block(entries * sizeof *table);
    if (!entries || dwframe_index(whole, table, entries, count, refusal))
        stop_at("no index");
}

/* Mostly one that the section covers. */
static uint64_t some_address(void)
{
    const dwframe_entry *entry = &table[below(entries)];
    return below(8) ? entry->begin + below(entry->range) : number();
}

static uint8_t *damaged(size_t *len)
{
    uint64_t way = below(3);
    *len = way == 1 ? below(section_len) : section_len;
    uint8_t *copy = block(*len);
    memcpy(copy, section, *len);
    for (uint64_t times = way == 2 ? *len : 1 + below(3); times && *len; times--)
        copy[below(*len)] = (uint8_t)number();
    /* What was written may be what stood there. */
    if (*len == section_len && !memcmp(copy, section, *len))
        copy[below(*len)] ^= (uint8_t)(1 + below(255));
    return copy;
}

/* ---- calls */

#endif
