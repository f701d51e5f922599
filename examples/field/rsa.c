/* RSA by words of 16 bits: each block of 14 bytes of the input to the power 17 modulo a number of 127 bits, by squaring and
 * multiplying, which add and take the remainder bit by bit. */
enum { WORDS = 8 };
/* 2^64 - 59 times 2^63 - 25, lowest word first */
static const uint16_t modulus[WORDS] = {0x05c3, 0x0000, 0x0000, 0x8000, 0xffc9, 0xffff, 0xffff, 0x7fff};

int is_less(const uint16_t *a, const uint16_t *b)
{
    for (int i = WORDS - 1; i >= 0; i--)
        if (a[i] != b[i])
            return a[i] < b[i];
    return 0;
}

void subtract(uint16_t *a, const uint16_t *b)
{
    int borrow = 0;
    for (int i = 0; i < WORDS; i++) {
        int difference = a[i] - b[i] - borrow;
        a[i] = difference;
        borrow = difference < 0;
    }
}

/* a = 2a, and b more where there is one, modulo the modulus, which is below 2^127 */
void double_modulo(uint16_t *a, const uint16_t *b)
{
    unsigned carry = 0;
    for (int i = 0; i < WORDS; i++) {
        unsigned sum = 2u * a[i] + carry;
        a[i] = sum;
        carry = sum >> 16;
    }
    if (!is_less(a, modulus))
        subtract(a, modulus);
    if (b) {
        carry = 0;
        for (int i = 0; i < WORDS; i++) {
            unsigned sum = (unsigned)a[i] + b[i] + carry;
            a[i] = sum;
            carry = sum >> 16;
        }
        if (!is_less(a, modulus))
            subtract(a, modulus);
    }
}

void multiply(uint16_t *to, const uint16_t *a, const uint16_t *b)
{
    uint16_t sum[WORDS] = {0};
    for (int bit = 16 * WORDS - 1; bit >= 0; bit--)
        double_modulo(sum, a[bit / 16] >> bit % 16 & 1 ? b : 0);
    for (int i = 0; i < WORDS; i++)
        to[i] = sum[i];
}

void encrypt(uint16_t *block)
{
    uint16_t power[WORDS];
    for (int i = 0; i < WORDS; i++)
        power[i] = block[i];
    for (int i = 0; i < 4; i++)
        multiply(power, power, power);
    multiply(block, power, block);
}

int main(void)
{
    int c = getchar();
    while (c >= 0) {
        uint16_t block[WORDS] = {0};
        for (int i = 0; i < 2 * WORDS - 2 && c >= 0; i++) {
            block[i / 2] |= c << i % 2 * 8;
            c = getchar();
        }
        encrypt(block);
        for (int i = WORDS - 1; i >= 0; i--)
            for (int shift = 12; shift >= 0; shift -= 4)
                putchar("0123456789abcdef"[block[i] >> shift & 15]);
        putchar('\n');
    }
    return 0;
}
