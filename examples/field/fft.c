/* A Fourier transform of 64 samples in fixed point (Cooley and Tukey 1965): Q15, halved at each stage. The input's bytes are the
 * samples. It prints the magnitudes of the first 32 lines, by the larger part and half of the smaller. */
enum { SIZE = 64 };
static int16_t real[SIZE], imaginary[SIZE];
/* sin(2 pi i / 64) in Q15, a quarter of the turn */
static const int16_t quarter[17] = {
    0, 3212, 6393, 9512, 12539, 15446, 18204, 20787, 23170, 25329, 27245, 28898, 30273, 31356, 32137, 32609, 32767
};

int sine(int i)
{
    i = i % SIZE;
    if (i >= SIZE / 2)
        return -sine(i - SIZE / 2);
    return quarter[i <= SIZE / 4 ? i : SIZE / 2 - i];
}

int cosine(int i)
{
    return sine(i + SIZE / 4);
}

void reverse_bits(void)
{
    int j = 0;
    for (int i = 1; i < SIZE; i++) {
        int bit = SIZE / 2;
        while (j & bit) {
            j = j ^ bit;
            bit = bit / 2;
        }
        j = j | bit;
        if (i < j) {
            int16_t kept = real[i];
            real[i] = real[j];
            real[j] = kept;
        }
    }
}

void butterfly(int a, int b, int turn)
{
    int c = cosine(turn), s = -sine(turn);
    int x = (real[b] * c - imaginary[b] * s) >> 15, y = (real[b] * s + imaginary[b] * c) >> 15;
    real[b] = (real[a] - x) >> 1;
    imaginary[b] = (imaginary[a] - y) >> 1;
    real[a] = (real[a] + x) >> 1;
    imaginary[a] = (imaginary[a] + y) >> 1;
}

void transform(void)
{
    reverse_bits();
    for (int half = 1; half < SIZE; half = 2 * half)
        for (int start = 0; start < SIZE; start += 2 * half)
            for (int i = 0; i < half; i++)
                butterfly(start + i, start + i + half, i * (SIZE / 2 / half));
}

void print_number(unsigned n)
{
    if (n >= 10)
        print_number(n / 10);
    putchar('0' + n % 10);
}

int absolute(int n)
{
    return n < 0 ? -n : n;
}

int main(void)
{
    int c, peak = 0, largest = 0;
    for (int i = 0; i < SIZE && (c = getchar()) >= 0; i++)
        real[i] = (c - 128) << 7;
    transform();
    for (int i = 0; i < SIZE / 2; i++) {
        int a = absolute(real[i]), b = absolute(imaginary[i]), size = a > b ? a + b / 2 : b + a / 2;
        print_number(size);
        putchar(i % 8 < 7 ? ' ' : '\n');
        if (i > 0 && size > largest) {
            largest = size;
            peak = i;
        }
    }
    return peak;
}
