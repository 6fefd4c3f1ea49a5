/* A small program whose call frame table the examples hold. */
static int shared[16];

__attribute__((noinline)) int sum(const int *numbers, int count)
{
    int total = 0;
    for (int i = 0; i < count; i++)
        total += numbers[i] ^ shared[i & 15];
    return total;
}

__attribute__((noinline)) int deep(int count)
{
    int numbers[64];
    for (int i = 0; i < 64; i++)
        numbers[i] = i * count;
    return count == 0 ? 0 : sum(numbers, 64) + deep(count - 1);
}

void _start(void)
{
    shared[0] = deep(3);
    for (;;)
        ;
}
