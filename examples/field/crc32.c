/* CRC-32 (IEEE 802.3) of the input by a table of 16 entries, a half byte at a time. */
static const unsigned table[16] = {
    0x00000000, 0x1db71064, 0x3b6e20c8, 0x26d930ac, 0x76dc4190, 0x6b6b51f4, 0x4db26158, 0x5005713c,
    0xedb88320, 0xf00f9344, 0xd6d6a3e8, 0xcb61b38c, 0x9b64c2b0, 0x86d3d2d4, 0xa00ae278, 0xbdbdf21c
};

void print_hex(unsigned n, int digits)
{
    for (int i = 4 * digits - 4; i >= 0; i -= 4)
        putchar("0123456789abcdef"[n >> i & 15]);
}

int main(void)
{
    unsigned crc = 0xffffffff;
    int c;
    while ((c = getchar()) >= 0) {
        crc = crc ^ c;
        crc = crc >> 4 ^ table[crc & 15];
        crc = crc >> 4 ^ table[crc & 15];
    }
    print_hex(~crc, 8);
    putchar('\n');
    return 0;
}
