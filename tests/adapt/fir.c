/* A low-pass filter over samples, by Q15 coefficients. */
#include <stdint.h>
#include <stdio.h>

#define TAPS 9

static const int16_t coefficient[TAPS] = { 410, 1638, 3686, 5734, 6554, 5734, 3686, 1638, 410 };

typedef struct {
    int16_t delay[TAPS];
    uint8_t at;
} fir_t;

static int16_t fir(fir_t *f, int16_t sample)
{
    int32_t sum = 1 << 14;
    uint8_t k = f->at;
    f->delay[f->at] = sample;
    for (uint8_t i = 0; i < TAPS; ++i) {
        sum += (int32_t)coefficient[i] * f->delay[k];
        k = k == 0 ? TAPS - 1 : k - 1;
    }
    if (++f->at >= TAPS)
        f->at = 0;
    return (int16_t)(sum >> 15);
}

int main(void)
{
    fir_t f = { { 0 }, 0 };
    const int32_t table[2][4] = { 0, 700, 1000, 700, 0, -700, -1000, -700 };
    for (int n = 0; n < 48; n++) {
        int16_t wave = (int16_t)(table[n / 4 % 2][n % 4] + (n & 1 ? 300 : -300));
        int16_t y = fir(&f, wave);
        printf("%6d%c", y, n % 8 == 7 ? '\n' : ' ');
    }
    return 0;
}
