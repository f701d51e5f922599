/* AES-128 (FIPS 197) of the input in blocks of 16 bytes by one key, the last block filled with zeros. The S-box is computed from
 * inverses in the field of 256 elements. */
static uint8_t sbox[256];
static uint8_t round_keys[176];
static const uint8_t key[16] = {
    0x2b, 0x7e, 0x15, 0x16, 0x28, 0xae, 0xd2, 0xa6, 0xab, 0xf7, 0x15, 0x88, 0x09, 0xcf, 0x4f, 0x3c
};

uint8_t twice(uint8_t a)
{
    return a << 1 ^ (a & 0x80 ? 0x1b : 0);
}

uint8_t rotated(uint8_t a, int n)
{
    return a << n | a >> 8 - n;
}

/* p goes through the powers of 3, and q through their inverses. */
void make_sbox(void)
{
    uint8_t p = 1, q = 1;
    do {
        p = p ^ twice(p);
        q ^= q << 1;
        q ^= q << 2;
        q ^= q << 4;
        if (q & 0x80)
            q ^= 0x09;
        sbox[p] = q ^ rotated(q, 1) ^ rotated(q, 2) ^ rotated(q, 3) ^ rotated(q, 4) ^ 0x63;
    } while (p != 1);
    sbox[0] = 0x63;
}

void expand_key(void)
{
    uint8_t round = 1;
    for (int i = 0; i < 16; i++)
        round_keys[i] = key[i];
    for (int i = 16; i < 176; i += 4) {
        uint8_t word[4];
        for (int j = 0; j < 4; j++)
            word[j] = round_keys[i - 4 + j];
        if (i % 16 == 0) {
            uint8_t first = word[0];
            word[0] = sbox[word[1]] ^ round;
            word[1] = sbox[word[2]];
            word[2] = sbox[word[3]];
            word[3] = sbox[first];
            round = twice(round);
        }
        for (int j = 0; j < 4; j++)
            round_keys[i + j] = round_keys[i - 16 + j] ^ word[j];
    }
}

void add_round_key(uint8_t *state, int round)
{
    for (int i = 0; i < 16; i++)
        state[i] ^= round_keys[16 * round + i];
}

void substitute_and_shift(uint8_t *state)
{
    uint8_t old[16];
    for (int i = 0; i < 16; i++)
        old[i] = sbox[state[i]];
    for (int i = 0; i < 16; i++)
        state[i] = old[(i + 4 * (i % 4)) % 16];
}

void mix_columns(uint8_t *state)
{
    for (int i = 0; i < 16; i += 4) {
        uint8_t first = state[i], all = state[i] ^ state[i + 1] ^ state[i + 2] ^ state[i + 3];
        for (int j = 0; j < 4; j++) {
            uint8_t next = j < 3 ? state[i + j + 1] : first;
            state[i + j] ^= all ^ twice(state[i + j] ^ next);
        }
    }
}

void encrypt(uint8_t *state)
{
    add_round_key(state, 0);
    for (int round = 1; round < 10; round++) {
        substitute_and_shift(state);
        mix_columns(state);
        add_round_key(state, round);
    }
    substitute_and_shift(state);
    add_round_key(state, 10);
}

void print_hex(unsigned n)
{
    putchar("0123456789abcdef"[n >> 4]);
    putchar("0123456789abcdef"[n & 15]);
}

int main(void)
{
    int c = getchar();
    make_sbox();
    expand_key();
    while (c >= 0) {
        uint8_t block[16] = {0};
        for (int i = 0; i < 16 && c >= 0; i++) {
            block[i] = c;
            c = getchar();
        }
        encrypt(block);
        for (int i = 0; i < 16; i++)
            print_hex(block[i]);
        putchar('\n');
    }
    return 0;
}
