/* A temperature loop in fixed point, Q16. */
#include <stdint.h>
#include <stdio.h>

typedef int32_t q16_t;
#define Q16(x) ((q16_t)((x) * 65536 / 100)) /* hundredths */

typedef struct {
    q16_t kp, ki, kd;
    q16_t integral, last;
    struct { q16_t low, high; } limit;
} pid_ctrl_t;

static q16_t q16_mul(q16_t a, q16_t b)
{
    int32_t whole = (a >> 16) * b;
    uint32_t part = ((uint32_t)a & 0xFFFF) * (((uint32_t)b >> 8) & 0xFF) >> 8;
    part += ((uint32_t)a & 0xFFFF) * ((uint32_t)b & 0xFF) >> 16;
    return whole + ((a & 0xFFFF) * (b >> 16)) + (q16_t)part;
}

static q16_t clamp(q16_t v, q16_t low, q16_t high)
{
    return v < low ? low : v > high ? high : v;
}

static q16_t pid_step(pid_ctrl_t *p, q16_t error)
{
    q16_t change = error - p->last;
    p->integral = clamp(p->integral + (error >> 3), p->limit.low, p->limit.high);
    p->last = error;
    q16_t out = q16_mul(p->kp, error) + q16_mul(p->ki, p->integral) + q16_mul(p->kd, change);
    return clamp(out, p->limit.low, p->limit.high);
}

static void show(q16_t v)
{
    if (v < 0) {
        putchar('-');
        v = -v;
    }
    printf("%d.%02d", v >> 16, (int)(((v & 0xFFFF) * 100u) >> 16));
}

int main(void)
{
    pid_ctrl_t heater = {
        .limit = { .low = Q16(-5000), .high = Q16(10000) },
        .kp = Q16(80), .ki = Q16(12), .kd = Q16(5),
    };
    q16_t temperature = Q16(2000), target = Q16(6000);
    for (uint16_t i = 0; i < 60; i++) {
        q16_t power = pid_step(&heater, target - temperature);
        temperature += (power >> 5) - ((temperature - Q16(2000)) >> 6);
        if (i % 10 == 9) {
            printf("%3u ", i);
            show(temperature);
            putchar(' ');
            show(power);
            putchar('\n');
        }
    }
    return 0;
}
