/* A lamp that blinks a number in long and short flashes, by a tick. */
#include <stdint.h>
#include <stdbool.h>
#include <stddef.h>
#include <stdio.h>

#define LED_PIN     (1u << 5)
#define TICKS_SHORT 2
#define TICKS_LONG  6
#define TICKS_GAP   2

static volatile uint32_t port;

static inline void led_set(bool on)
{
    if (on)
        port |= LED_PIN;
    else
        port &= ~LED_PIN;
}

static inline bool led_get(void)
{
    return port & LED_PIN;
}

static void tick(register uint32_t n)
{
    while (n--)
        putchar(led_get() ? '#' : '.');
}

static void flash(uint8_t value)
{
    static uint16_t flashes = 0;
    for (uint8_t mask = 0x80; mask != 0; mask >>= 1) {
        led_set(true);
        tick((value & mask) ? TICKS_LONG : TICKS_SHORT);
        led_set(false);
        tick(TICKS_GAP);
        flashes++;
    }
    printf(" %u flashes\n", flashes);
}

int main(void)
{
    static const uint8_t message[] = { 0xA5, 0x00, 0x3C };
    for (size_t i = 0; i < sizeof message / sizeof message[0]; i++)
        flash(message[i]);
    return 0;
}
