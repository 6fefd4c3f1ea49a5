/* The module of crash.c: a shared object, or a part of the program. */
#include "crash_module.h"

/* Has more to keep over its call than the registers that a call may change. */
CALLED long back(long (*step)(long), long depth)
{
    long a = depth * 3, b = depth ^ 5, c = depth + 7, d = a ^ b, e = b ^ c;
    return step(depth) + a + b + c + d + e;
}
