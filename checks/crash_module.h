/* What crash.c calls in its module. */
#define CALLED __attribute__((noinline))

/* Calls `step` with `depth`. */
long back(long (*step)(long), long depth);
