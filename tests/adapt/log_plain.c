/* A log in a ring of records, told at the end with levels by name. */
#include <stdint.h>
#include <stdio.h>
#include <string.h>

#define ENTRIES 4
#define LOG(level, code) log_store((level), (code), __func__)

enum level { LOG_DEBUG, LOG_INFO, LOG_WARN, LOG_ERROR, LOG_LEVELS };

_Static_assert(LOG_LEVELS == 4, "names");

struct entry {
    uint32_t at;
    enum level level;
    int16_t code;
    char where[12];
};

static struct {
    struct entry entries[ENTRIES];
    uint8_t next;
    uint32_t lost;
} log_ring;

static uint32_t clock_now(void)
{
    static uint32_t now = UINT32_C(0xFFFFFFF0);
    return now += 7;
}

static void log_store(enum level level, int16_t code, const char *where)
{
    struct entry e = { .at = clock_now(), .level = level, .code = code };
    strncpy(e.where, where, sizeof e.where - 1);
    if (level == LOG_DEBUG)
        return;
    if (log_ring.next >= ENTRIES) {
        memmove(&log_ring.entries[0], &log_ring.entries[1], sizeof(struct entry) * (ENTRIES - 1));
        log_ring.next = ENTRIES - 1;
        log_ring.lost++;
    }
    log_ring.entries[log_ring.next++] = e;
}

static void sensor_read(int16_t v)
{
    if (v < 0)
        LOG(LOG_ERROR, v);
    else if (v > 100)
        LOG(LOG_WARN, v);
    else
        LOG(LOG_INFO, v);
}

static void log_dump(void)
{
    static const char *const names[LOG_LEVELS] = { "debug", "info", "warn", "ERROR" };
    for (uint8_t i = 0; i < log_ring.next; i++) {
        const struct entry *e = &log_ring.entries[i];
        printf("%08lX %-6s|%5d|%12s|\n", (unsigned long)e->at, names[e->level], e->code, e->where);
    }
    printf("%lu lost, 100%%\n", (unsigned long)log_ring.lost);
}

int main(void)
{
    const int16_t values[] = { 3, -1, 250, 99, -32768, 100, 101 };
    for (unsigned i = 0; i < sizeof values / sizeof *values; i++)
        sensor_read(values[i]);
    LOG(LOG_DEBUG, 0);
    log_dump();
    return (int)log_ring.lost;
}
