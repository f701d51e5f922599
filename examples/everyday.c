/* Reads lines `name=number`, keeps the last eight in a ring, and prints them with a checksum. An ordinary source with headers:
 * docs/everyday.md says how it is compiled. */
#include <ctype.h>
#include <stdbool.h>
#include <stdint.h>
#include <stdio.h>
#include <string.h>

#define RING 8
#define NAME_MAX 12
#define ARRAY_SIZE(a) (sizeof(a) / sizeof((a)[0]))

struct reading {
    char name[NAME_MAX];
    uint16_t value;
};

static struct reading ring[RING];
static uint8_t next, stored;

static const char *const units[] = { "temp", "volt", "hall" };

static void print(const char *text)
{
    while (*text)
        putchar(*text++);
}

static void print_number(uint32_t n)
{
    if (n >= 10)
        print_number(n / 10);
    putchar('0' + n % 10);
}

static bool is_known(const char *name)
{
    for (size_t i = 0; i < ARRAY_SIZE(units); i++)
        if (strcmp(units[i], name) == 0)
            return true;
    return false;
}

static int read_line(char *line, size_t room)
{
    size_t n = 0;
    int c;
    while ((c = getchar()) != EOF && c != '\n')
        if (n + 1 < room)
            line[n++] = tolower(c);
    line[n] = 0;
    return c == EOF && n == 0 ? EOF : (int)n;
}

static void store(char *line)
{
    char *sign = strchr(line, '=');
    if (sign == NULL || sign - line >= NAME_MAX)
        return;
    *sign = 0;
    uint32_t value = 0;
    for (const char *p = sign + 1; isdigit(*p) && value <= UINT16_MAX; p++)
        value = 10 * value + (*p - '0');
    strncpy(ring[next].name, line, NAME_MAX);
    ring[next].value = value > UINT16_MAX ? UINT16_MAX : value;
    next = (next + 1) % RING;
    if (stored < RING)
        stored++;
}

int main(void)
{
    char line[40];
    uint16_t sum = 0;
    while (read_line(line, sizeof line) != EOF)
        store(line);
    for (uint8_t i = 0; i < stored; i++) {
        const struct reading *r = &ring[(next + RING - stored + i) % RING];
        print(r->name);
        print(is_known(r->name) ? " is " : "? is ");
        print_number(r->value);
        putchar('\n');
        sum = (sum << 1 | sum >> 15) ^ r->value;
    }
    print("sum ");
    print_number(sum);
    putchar('\n');
    return 0;
}
