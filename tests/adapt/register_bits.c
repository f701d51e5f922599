/* A timer's control register seen as bits. */
#include <stdint.h>
#include <stdio.h>

typedef union {
    uint32_t word;
    struct {
        uint32_t enable : 1;
        uint32_t mode : 2;
        uint32_t : 5;
        uint32_t prescaler : 8;
    } bits;
} ctrl_t;

#define TIMER_CTRL (*(volatile uint32_t *)0x40020014)

int main(void)
{
    ctrl_t c = { .word = 0 };
    c.bits.enable = 1;
    c.bits.prescaler = 72;
    TIMER_CTRL = c.word;
    printf("%08x\n", (unsigned)c.word);
    return 0;
}
