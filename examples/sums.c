/* The sums of the first squares, in decimal digits. */
static unsigned sum;

void print(unsigned n)
{
    if (n >= 10)
        print(n / 10);
    putchar('0' + n % 10);
}

int main(void)
{
    for (unsigned i = 1; i <= 9; i++) {
        sum += i * i;
        print(sum);
        putchar(i < 9 ? ' ' : '\n');
    }
    return 7;
}
