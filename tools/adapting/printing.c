/* What tools/adapt puts before a program that prints by printf and its like: functions over putchar. */

static void adapt_text(const char *text)
{
    while (*text)
        putchar(*text++);
}

static void adapt_padded(const char *text, int width)
{
    int length = 0;
    while (text[length])
        length++;
    for (int i = length; i < width; i++)
        putchar(' ');
    for (int i = 0; i < length; i++)
        putchar(text[i]);
    for (int i = length; i < -width; i++)
        putchar(' ');
}

static void adapt_number(unsigned n, int minus, unsigned base, int ten, int width, int zeros)
{
    char digits[12];
    int length = 0;
    do {
        unsigned digit = n % base;
        digits[length++] = digit < 10 ? '0' + digit : ten + digit - 10;
        n = n / base;
    } while (n > 0);
    for (int i = length + minus; !zeros && i < width; i++)
        putchar(' ');
    if (minus)
        putchar('-');
    for (int i = length + minus; zeros && i < width; i++)
        putchar('0');
    for (int i = length; i > 0; i--)
        putchar(digits[i - 1]);
    for (int i = length + minus; i < -width; i++)
        putchar(' ');
}

static void adapt_signed(int n, int width, int zeros)
{
    adapt_number(n < 0 ? -n : n, n < 0, 10, 'a', width, zeros);
}
