/* The ones in words, counted in four ways, of numbers by a linear congruence that the input seeds. */
static const uint8_t halves[16] = {0, 1, 1, 2, 1, 2, 2, 3, 1, 2, 2, 3, 2, 3, 3, 4};

int by_shifts(uint32_t n)
{
    int count = 0;
    for (; n; n = n >> 1)
        count += n & 1;
    return count;
}

int by_lowest(uint32_t n)
{
    int count = 0;
    for (; n; n = n & n - 1)
        count++;
    return count;
}

int by_table(uint32_t n)
{
    int count = 0;
    for (int i = 0; i < 8; i++) {
        count += halves[n & 15];
        n = n >> 4;
    }
    return count;
}

int by_sums(uint32_t n)
{
    n = n - (n >> 1 & 0x55555555);
    n = (n & 0x33333333) + (n >> 2 & 0x33333333);
    n = n + (n >> 4) & 0x0f0f0f0f;
    return n * 0x01010101u >> 24;
}

void print_number(unsigned n)
{
    if (n >= 10)
        print_number(n / 10);
    putchar('0' + n % 10);
}

int main(void)
{
    uint32_t seed = 0;
    unsigned sums[4] = {0};
    int c;
    while ((c = getchar()) >= 0)
        seed = seed * 31 + c;
    for (int i = 0; i < 100; i++) {
        seed = seed * 1103515245u + 12345u;
        sums[0] += by_shifts(seed);
        sums[1] += by_lowest(seed);
        sums[2] += by_table(seed);
        sums[3] += by_sums(seed);
    }
    for (int i = 0; i < 4; i++) {
        print_number(sums[i]);
        putchar(i < 3 ? ' ' : '\n');
    }
    return sums[0] == sums[3] ? 0 : 1;
}
