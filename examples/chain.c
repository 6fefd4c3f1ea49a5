/* A chain of calls that ends in a trap. The handler of the trap prints the registers and the stack of the machine as a
   dump for `dwframe unwind`. */
#define _GNU_SOURCE
#include <signal.h>
#include <stdint.h>
#include <stdio.h>
#include <stdlib.h>
#include <ucontext.h>
#include <unistd.h>

#define CALLED __attribute__((noinline))

/* ---- the dump */

static const unsigned char *stack_end;

#if defined __x86_64__
/* Those of DWARF's numbers 0 to 15 (System V ABI for AMD64, 3.6.2). */
static const int numbered[] = {REG_RAX, REG_RDX, REG_RCX, REG_RBX, REG_RSI, REG_RDI, REG_RBP, REG_RSP,
                               REG_R8,  REG_R9,  REG_R10, REG_R11, REG_R12, REG_R13, REG_R14, REG_R15};

static const unsigned char *write_registers(const mcontext_t *machine)
{
    printf("pc %#llx\n", (unsigned long long)machine->gregs[REG_RIP]);
    for (int number = 0; number < 16; number++)
        printf("r%d 0x%llx\n", number, (unsigned long long)machine->gregs[numbered[number]]);
    return (const unsigned char *)machine->gregs[REG_RSP];
}
#elif defined __aarch64__
/* x0 to x30 have DWARF's numbers 0 to 30, sp has 31 (DWARF for the Arm 64-bit Architecture, 4.1). */
static const unsigned char *write_registers(const mcontext_t *machine)
{
    printf("pc %#llx\n", machine->pc);
    for (int number = 0; number < 31; number++)
        printf("r%d 0x%llx\n", number, machine->regs[number]);
    printf("r31 0x%llx\n", machine->sp);
    return (const unsigned char *)machine->sp;
}
#endif

static void write_memory(const unsigned char *from)
{
    for (const unsigned char *line = from; line < stack_end; line += 16) {
        printf("mem %#llx ", (unsigned long long)(uintptr_t)line);
        for (int i = 0; i < 16; i++)
            printf("%02x", line[i]);
        printf("\n");
    }
}

static void stopped(int signal, siginfo_t *info, void *context)
{
    (void)signal, (void)info;
    write_memory(write_registers(&((const ucontext_t *)context)->uc_mcontext));
    fflush(stdout);
    _exit(0);
}

/* ---- the chain */

static volatile long seen;

/* Its call is the last instruction of the caller, so the return address may stand behind the caller. */
CALLED static _Noreturn void give_up(long value)
{
    seen = value;
    __builtin_trap();
}

CALLED static void expect(long value)
{
    if (value > seen)
        give_up(value);
    seen = value;
}

/* Has a stack of its own alignment: gcc writes its CFA as an expression. */
CALLED static long aligned(long count)
{
    _Alignas(64) volatile char line[64];
    volatile char room[count];
    line[0] = room[count - 1] = (char)count;
    expect(line[0] + room[count - 1]);
    return line[0] + room[0];
}

/* Has more to keep over its calls than fits the registers. */
CALLED static long many(long a, long b, long c)
{
    long d = a * seen, e = b * seen, f = c * seen, g = d ^ e, h = e ^ f;
    long kept = aligned(a + b + c);
    kept += aligned(d + e + a);
    return kept + a + b + c + d + e + f + g + h;
}

/* Uses what it calls: a call whose result is returned may be a jump, which leaves no frame. */
CALLED static long descend(long depth)
{
    if (depth == 0)
        return many(depth + 3, depth + 5, depth + 7) - seen;
    return descend(depth - 1) * depth + seen;
}

int main(int argc, char **argv)
{
    struct sigaction action = {.sa_sigaction = stopped, .sa_flags = SA_SIGINFO};
    sigaction(SIGILL, &action, NULL);
    sigaction(SIGTRAP, &action, NULL);
    stack_end = (const unsigned char *)argv;
    printf("# %s\n", argv[0]);
    return (int)descend(argc + 2);
}
