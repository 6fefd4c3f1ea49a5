/* Prints the stacks of a core file as libunwind finds them:
 *
 *     core_libunwind CORE [ADDRESS FILE]..
 *
 * FILE is one that was mapped from ADDRESS on; what of it the core file does not have is left out. */
#include <libunwind-coredump.h>
#include <stdio.h>
#include <stdlib.h>

/* A stack that goes round has no end. */
enum { FRAMES = 1000 };

static void print_stack(unw_addr_space_t space, struct UCD_info *core)
{
    unw_cursor_t cursor;
    unw_word_t address;
    int is_there = unw_init_remote(&cursor, space, core) == 0;
    printf("thread %d\n", (int)_UCD_get_pid(core));
    for (int number = 0; is_there && number < FRAMES && unw_get_reg(&cursor, UNW_REG_IP, &address) == 0; number++) {
        printf("#%d 0x%llx\n", number, (unsigned long long)address);
        is_there = unw_step(&cursor) > 0;
    }
}

int main(int argc, char **argv)
{
    unw_addr_space_t space = unw_create_addr_space(&_UCD_accessors, 0);
    struct UCD_info *core = argc > 1 ? _UCD_create(argv[1]) : NULL;
    if (!space || !core) {
        fprintf(stderr, "usage: core_libunwind CORE [ADDRESS FILE]..\n");
        return 2;
    }
    for (int i = 2; i + 1 < argc; i += 2)
        _UCD_add_backing_file_at_vaddr(core, strtoul(argv[i], NULL, 0), argv[i + 1]);
    for (int thread = 0; thread < _UCD_get_num_threads(core); thread++) {
        _UCD_select_thread(core, thread);
        print_stack(space, core);
    }
    _UCD_destroy(core);
    return 0;
}
