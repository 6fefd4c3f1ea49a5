/* What the command's check, normal and same do, by the library for C:
 *
 *     library check|normal 4|8 little|big FILE
 *     library same 4|8 little|big FILE FILE2
 *
 * The texts and the exit statuses are those of the command. */
#include <stdio.h>
#include <stdlib.h>
#include <string.h>

#include "dwframe.h"

static int fail(int status, const char *text)
{
    fprintf(stderr, "%s\n", text);
    return status;
}

/* What a status other than DWFRAME_OK says, for one section or for two. */
static int tell(dwframe_status status, const dwframe_refusal *refusal, int two)
{
    char name[DWFRAME_NAME_SIZE] = "";
    if (status == DWFRAME_BAD_ARGUMENT)
        return fail(3, "bad address size or byte order");
    if (status != DWFRAME_REFUSED)
        return fail(5, "out of memory");
    dwframe_refusal_name(refusal->code, name, sizeof name);
    fprintf(stderr, "refused: %s at 0x%zx", name, refusal->at);
    if (two)
        fprintf(stderr, " in %s", refusal->section == 1 ? "first" : "second");
    fprintf(stderr, "\n");
    return 2;
}

/* The bytes of a file, at an address that is not null also where there are none. */
static uint8_t *load(const char *path, size_t *len)
{
    size_t room = 1 << 16;
    FILE *file = fopen(path, "rb");
    if (!file)
        return NULL;
    uint8_t *bytes = malloc(room);
    *len = 0;
    while (bytes) {
        *len += fread(bytes + *len, 1, room - *len, file);
        if (*len < room)
            break;
        uint8_t *more = realloc(bytes, room *= 2);
        if (!more)
            free(bytes);
        bytes = more;
    }
    fclose(file);
    return bytes;
}

static int check(const dwframe_section *section)
{
    dwframe_counts counts;
    dwframe_refusal refusal;
    dwframe_status status = dwframe_check(section, &counts, &refusal);
    if (status != DWFRAME_OK)
        return tell(status, &refusal, 0);
    printf("ok cies=%zu fdes=%zu bytes=%zu\n", counts.cies, counts.fdes, section->len);
    return 0;
}

/* Asks with no room first, and then with what is needed. */
static int normal(const dwframe_section *section)
{
    size_t needed;
    dwframe_refusal refusal;
    dwframe_status status = dwframe_normalise(section, DWFRAME_NOT_NULL(uint8_t, NULL), 0, &needed, &refusal);
    if (status == DWFRAME_OK)
        return 0;
    if (status != DWFRAME_TOO_SHORT)
        return tell(status, &refusal, 0);
    uint8_t *out = malloc(needed);
    if (!out)
        return fail(5, "out of memory");
    size_t room = needed;
    status = dwframe_normalise(section, out, room, &needed, &refusal);
    if (status == DWFRAME_OK)
        fwrite(out, 1, needed, stdout);
    free(out);
    return status == DWFRAME_OK ? 0 : tell(status, &refusal, 0);
}

static int same(const dwframe_section *first, const dwframe_section *second)
{
    uint32_t alike;
    dwframe_refusal refusal;
    dwframe_status status = dwframe_same(first, second, &alike, &refusal);
    if (status != DWFRAME_OK)
        return tell(status, &refusal, 1);
    puts(alike ? "same" : "different");
    return alike ? 0 : 1;
}

int main(int argc, char **argv)
{
    uint8_t *bytes = NULL, *other = NULL;
    size_t len = 0, other_len = 0;
    const char *call = argc > 1 ? argv[1] : "";
    int two = !strcmp(call, "same");
    int status;
    if (argc != 5 + two)
        return fail(3, "usage: library check|normal|same 4|8 little|big FILE [FILE2]");
    if (!(bytes = load(argv[4], &len)) || (two && !(other = load(argv[5], &other_len)))) {
        free(bytes);
        return fail(4, "cannot read the file");
    }
    uint32_t address_size = (uint32_t)atoi(argv[2]);
    uint32_t byte_order = !strcmp(argv[3], "big") ? DWFRAME_BIG : DWFRAME_LITTLE;
    dwframe_section first = dwframe_section_of(bytes, len, address_size, byte_order);
    dwframe_section second = dwframe_section_of(other, other_len, address_size, byte_order);
    if (two)
        status = same(&first, &second);
    else
        status = !strcmp(call, "normal") ? normal(&first) : check(&first);
    free(bytes);
    free(other);
    return status;
}
