/* Settings in two slots with a sequence number; the younger whole one counts. */
#include <stdint.h>
#include <stdbool.h>
#include <stdio.h>
#include <string.h>

#define NAME_LEN 8
#define SLOTS 2

typedef struct {
    uint16_t threshold;
    int8_t offset;
    bool enabled;
    char name[NAME_LEN];
} config_t;

typedef struct {
    uint32_t sequence;
    config_t config;
    uint16_t checksum;
} slot_t;

static slot_t eeprom[SLOTS];
static const config_t defaults = { .threshold = 500, .offset = -3, .enabled = true, .name = "sensor" };

static uint16_t checksum(const slot_t *s)
{
    uint16_t sum = 0x55AA;
    sum += s->sequence & 0xFFFF;
    sum += s->config.threshold;
    sum += (uint8_t)s->config.offset;
    sum += s->config.enabled;
    for (int i = 0; i < NAME_LEN; i++)
        sum = (sum << 3 | sum >> 13) ^ (uint8_t)s->config.name[i];
    return sum;
}

static int newest(void)
{
    int best = -1;
    for (int i = 0; i < SLOTS; i++)
        if (eeprom[i].sequence != 0 && eeprom[i].checksum == checksum(&eeprom[i]))
            if (best < 0 || eeprom[i].sequence > eeprom[best].sequence)
                best = i;
    return best;
}

static void load(config_t *c)
{
    int slot = newest();
    if (slot >= 0)
        memcpy(c, &eeprom[slot].config, sizeof(config_t));
    else
        *c = defaults;
}

static void save(config_t c)
{
    int slot = newest();
    uint32_t sequence = slot < 0 ? 1 : eeprom[slot].sequence + 1;
    slot_t *s = &eeprom[(slot + 1) % SLOTS];
    s->sequence = sequence;
    s->config = c;
    s->checksum = checksum(s);
}

static void show(const config_t *c)
{
    printf("%s: threshold %u, offset %d, %s\n", c->name, c->threshold, c->offset, c->enabled ? "on" : "off");
}

int main(void)
{
    config_t c;
    memset(eeprom, 0, sizeof(eeprom));
    load(&c);
    show(&c);
    c.threshold = 720;
    c.enabled = c.threshold & 0x100;
    save(c);
    strncpy(c.name, "hall", NAME_LEN);
    c.offset = 100;
    c.offset += 100;
    save(c);
    load(&c);
    show(&c);
    eeprom[1].config.name[0] ^= 1;
    load(&c);
    show(&c);
    printf("%08lx %04x\n", (unsigned long)eeprom[0].sequence, eeprom[0].checksum);
    return c.enabled;
}
