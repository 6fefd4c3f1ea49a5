/* A program that stops deep in calls that go to and fro between it and a module:
 *
 *     crash DEPTH THREADS trap|null|constant
 *
 * One of its threads stops, in a trap or in a call of address 0, and the others turn round meanwhile, each at the end of such a chain. With
 * `constant` there is a frame below the chain whose CFA a constant says. Of the C library nothing is on a stack but what has called `main`
 * and the threads. */
#define _GNU_SOURCE
#include <pthread.h>
#include <stdatomic.h>
#include <stdlib.h>
#include <string.h>

#include "crash_module.h"

enum { THREADS = 64, STACK = 1 << 16 };

static atomic_long arrived, turns;
static long threads;
static int is_constant;
static void (*volatile last)(void);

/* Its call is the last instruction of its caller, so the return address may stand behind the caller. */
CALLED static _Noreturn void give_up(void)
{
    if (last)
        __builtin_trap();
    last();
    abort();
}

CALLED static void turn(void)
{
    for (;;)
        atomic_fetch_add(&turns, 1);
}

/* The last that arrives stops the program. */
CALLED static void arrive(void)
{
    if (atomic_fetch_add(&arrived, 1) == threads - 1)
        give_up();
    turn();
}

/* Calls `step`. Its CFA is by an expression that reads a constant of the text: a core file does not have this, but the program's file. */
void by_constant(void (*step)(void));
#ifdef __x86_64__
__asm__(".text\n"
        ".globl by_constant\n"
        ".type by_constant, @function\n"
        "by_constant:\n"
        "    .cfi_startproc\n"
        "    sub $40, %rsp\n"
        "    .cfi_adjust_cfa_offset 40\n"
        /* In the call: DW_OP_breg16 (rip) 5, DW_OP_deref, DW_OP_breg7 (rsp) 0, DW_OP_plus. Behind it are two instructions of 5 bytes. */
        "    .cfi_escape 0x0f, 6, 0x80, 5, 0x06, 0x77, 0, 0x22\n"
        "    call *%rdi\n"
        "    add $40, %rsp\n"
        "    ret\n"
        "    .quad 48\n"
        "    .cfi_endproc\n"
        "    .size by_constant, .-by_constant\n");
#else
CALLED void by_constant(void (*step)(void))
{
    step();
    atomic_fetch_add(&turns, 1);
}
#endif

/* Has a stack of its own alignment: gcc writes its CFA as an expression. */
CALLED static long aligned(long count)
{
    _Alignas(64) volatile char line[64];
    volatile char room[count];
    line[0] = room[count - 1] = (char)count;
    if (is_constant)
        by_constant(arrive);
    else
        arrive();
    return line[0] + room[0];
}

/* Uses what it calls: a call whose result is returned may be a jump, which leaves no frame. */
CALLED static long down(long depth)
{
    return depth > 0 ? back(down, depth - 1) + depth : aligned(depth + 3) + arrived;
}

static void *run(void *depth)
{
    return (void *)(down((long)depth) + 1);
}

int main(int argc, char **argv)
{
    pthread_t others[THREADS];
    pthread_attr_t small;
    if (argc != 4)
        return 3;
    long depth = atol(argv[1]);
    threads = atol(argv[2]);
    last = strcmp(argv[3], "null") ? give_up : NULL;
    is_constant = strcmp(argv[3], "constant") == 0;
    pthread_attr_init(&small);
    pthread_attr_setstacksize(&small, STACK);
    for (long i = 1; i < threads && i < THREADS; i++)
        pthread_create(&others[i], &small, run, (void *)(depth + i));
    return (int)down(depth) + 1;
}
