/* Frames with a start byte, a length and a CRC-16, made and read again. */
#include <stdint.h>
#include <stdbool.h>
#include <stddef.h>
#include <stdio.h>
#include <string.h>

#define SOF 0x7E
#define MAX_PAYLOAD 24

struct __attribute__((packed)) frame {
    uint8_t sof;
    uint8_t length;
    uint8_t payload[MAX_PAYLOAD];
    uint16_t crc;
};

static uint16_t crc16(const void *data, size_t n)
{
    const uint8_t *p = (const uint8_t *)data;
    uint16_t crc = 0xFFFF;
    while (n--) {
        crc ^= (uint16_t)*p++ << 8;
        for (int i = 0; i < 8; i++)
            crc = (crc & 0x8000) ? (crc << 1) ^ 0x1021 : crc << 1;
    }
    return crc;
}

static bool frame_make(struct frame *f, const void *payload, size_t n)
{
    if (n > MAX_PAYLOAD)
        return false;
    memset(f, 0, sizeof *f);
    f->sof = SOF;
    f->length = (uint8_t)n;
    memcpy(f->payload, payload, n);
    f->crc = crc16(f->payload, n);
    return true;
}

static int frame_send(const struct frame *f, uint8_t *wire)
{
    int n = 0;
    wire[n++] = f->sof;
    wire[n++] = f->length;
    memcpy(wire + n, f->payload, f->length);
    n += f->length;
    wire[n++] = f->crc & 0xFF;
    wire[n++] = f->crc >> 8;
    return n;
}

static bool frame_read(const uint8_t *wire, int n, struct frame *out)
{
    struct frame f = { 0 };
    if (n < 4 || wire[0] != SOF || wire[1] > MAX_PAYLOAD || n != wire[1] + 4)
        return false;
    f.sof = wire[0];
    f.length = wire[1];
    memcpy(f.payload, &wire[2], f.length);
    f.crc = wire[n - 2] | wire[n - 1] << 8;
    if (crc16(f.payload, f.length) != f.crc)
        return false;
    *out = f;
    return true;
}

int main(void)
{
    static uint8_t wire[MAX_PAYLOAD + 4];
    struct frame f, g;
    const char *texts[] = { "", "A", "123456789", "a text of twenty-four by" };
    for (size_t i = 0; i < sizeof texts / sizeof texts[0]; i++) {
        if (!frame_make(&f, texts[i], strlen(texts[i])))
            continue;
        int n = frame_send(&f, wire);
        for (int k = 0; k < n; k++)
            printf("%02x", wire[k]);
        bool right = frame_read(wire, n, &g);
        wire[n - 3] ^= 0x10;
        bool damaged = frame_read(wire, n, &g);
        printf(" %s %s\n", right ? "ok" : "bad", damaged ? "taken" : "refused");
    }
    return 0;
}
