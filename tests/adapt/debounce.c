/* Buttons, debounced by counters, with short and long presses. */
#include <stdint.h>
#include <stdbool.h>
#include <stdio.h>

#define BUTTONS 3
#define STABLE 3
#define LONG_PRESS 10
#define BIT(n) (1U << (n))

typedef enum { NOTHING, PRESSED, RELEASED, HELD } edge_t;

static edge_t debounce(uint8_t which, bool raw)
{
    static struct {
        uint8_t count;
        bool down;
        uint16_t held;
    } buttons[BUTTONS] = { { 0, false, 0 } };
    typedef uint16_t ticks_t;

    if (raw != buttons[which].down) {
        if (++buttons[which].count < STABLE)
            return NOTHING;
        buttons[which].down = raw;
        buttons[which].count = 0;
        buttons[which].held = 0;
        return raw ? PRESSED : RELEASED;
    }
    buttons[which].count = 0;
    ticks_t held = buttons[which].held;
    if (buttons[which].down && held < LONG_PRESS)
        buttons[which].held = ++held;
    else
        return NOTHING;
    return held == LONG_PRESS ? HELD : NOTHING;
}

int main(void)
{
    static const char *names[] = { [PRESSED] = "down", [RELEASED] = "up", [HELD] = "held" };
    unsigned tick = 0;
    bool any = false;
    int c;
    while ((c = getchar()) != EOF) {
        if (c < '0' || c > '7')
            continue;
        const uint8_t pins = c - '0';
        tick++;
        for (int i = 0; i < BUTTONS; i++) {
            const edge_t edge = debounce(i, pins & BIT(i));
            any |= edge != NOTHING;
            switch (edge) {
            case PRESSED:
            case RELEASED:
            case HELD:
                printf("%3u: button %d %s\n", tick, i, names[edge]);
            case NOTHING:;
            }
        }
    }
    return any ? 0 : 1;
}
