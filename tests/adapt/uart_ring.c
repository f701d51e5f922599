/* A ring between an interrupt that receives and a main loop that echoes lines backwards. */
#include <stdint.h>
#include <stdbool.h>
#include <stdio.h>
#include <string.h>

#define RING_SIZE 32 /* a power of two */

typedef struct {
    volatile uint8_t head;
    volatile uint8_t tail;
    uint8_t data[RING_SIZE];
} ring_t;

static ring_t rx = { 0 };
static uint16_t overruns;

static bool ring_put(ring_t *r, uint8_t byte)
{
    uint8_t next = (r->head + 1) & (RING_SIZE - 1);
    if (next == r->tail)
        return false;
    r->data[r->head] = byte;
    r->head = next;
    return true;
}

static bool ring_get(ring_t *r, uint8_t *byte)
{
    if (r->head == r->tail)
        return false;
    *byte = r->data[r->tail];
    r->tail = (r->tail + 1) & (RING_SIZE - 1);
    return true;
}

/* What an interrupt would do. */
static bool uart_rx_isr(void)
{
    int c = getchar();
    if (c == EOF)
        return false;
    if (!ring_put(&rx, (uint8_t)c))
        overruns++;
    return true;
}

int main(void)
{
    char line[64];
    size_t n = 0;
    bool more = true;
    memset(line, 0, sizeof(line));
    while (more) {
        for (int burst = 0; burst < 7 && more; burst++)
            more = uart_rx_isr();
        uint8_t byte;
        while (ring_get(&rx, &byte)) {
            if (byte != '\n' && n < sizeof(line) - 1) {
                line[n++] = (char)byte;
                continue;
            }
            while (n > 0)
                putchar(line[--n]);
            putchar('\n');
        }
    }
    printf("overruns: %u\n", (unsigned)overruns);
    return overruns ? 1 : 0;
}
