/* The running mean of a sensor's samples, with a calibration by two points. */
#include <stdint.h>
#include <stdio.h>
#include <limits.h>

#define SAMPLES 8
#define ADC_MAX 4095

static uint16_t read_adc(void)
{
    static uint32_t seed = 12345;
    static const int16_t noise[16] = { 0, 3, -2, 5, -7, 1, [8] = 12, -12, 4 };
    seed = seed * 1103515245u + 12345u;
    int32_t v = 2048 + (int32_t)((seed >> 16) & 0x1FF) - 256 + noise[(seed >> 8) & 15];
    if (v < 0)
        v = 0;
    else if (v > ADC_MAX)
        v = ADC_MAX;
    return (uint16_t)v;
}

static uint16_t average(uint16_t sample)
{
    static uint16_t window[SAMPLES];
    static uint8_t at, filled;
    static uint32_t sum;
    sum -= window[at];
    window[at] = sample;
    sum += sample;
    at = (at + 1) % SAMPLES;
    if (filled < SAMPLES)
        filled++;
    return (sum + filled / 2) / filled;
}

static int32_t millivolts(uint16_t raw)
{
    enum { LOW_RAW = 100, LOW_MV = 81, HIGH_RAW = 4000, HIGH_MV = 3223 };
    return LOW_MV + (int32_t)(raw - LOW_RAW) * (HIGH_MV - LOW_MV) / (HIGH_RAW - LOW_RAW);
}

int main(void)
{
    int32_t least = INT_MAX, most = INT_MIN;
    for (int i = 0; i < 40; i++) {
        uint16_t raw = read_adc();
        int32_t mv = millivolts(average(raw));
        if (mv < least) least = mv;
        if (mv > most) most = mv;
        if (i % 8 == 7)
            printf("%2d: %4u %5d mV\n", i, raw, mv);
    }
    printf("from %d to %d mV, in hex %04X\n", least, most, most);
    return 0;
}
