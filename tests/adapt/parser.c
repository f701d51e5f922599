/* NMEA-like sentences: fields, a checksum, a position in degrees and minutes. */
#include <stdint.h>
#include <stdbool.h>
#include <stdio.h>
#include <string.h>
#include <ctype.h>

typedef enum { OK = 0, ERR_START = -1, ERR_SUM = -2, ERR_KIND = -3, ERR_FIELD = -4 } result_t;

typedef struct {
    struct { uint8_t degrees; uint16_t minutes; char side; } lat, lon;
    uint8_t satellites;
} fix_t;

static int hex(char c)
{
    if (isdigit((unsigned char)c))
        return c - '0';
    if (isxdigit((unsigned char)c))
        return toupper((unsigned char)c) - 'A' + 10;
    return -1;
}

static const char *field(const char *s, int n)
{
    while (n > 0 && (s = strchr(s, ',')) != NULL) {
        s++;
        n--;
    }
    return s;
}

static int32_t number(const char *s, const char *const stop)
{
    int32_t n = 0;
    if (s == NULL || !isdigit((unsigned char)*s))
        return -1;
    for (; s != stop && isdigit((unsigned char)*s); s++)
        n = n * 10 + *s - '0';
    return n;
}

static result_t parse(const char *s, fix_t *fix)
{
    uint8_t sum = 0;
    if (*s++ != '$')
        return ERR_START;
    const char *p = s;
    while (*p && *p != '*')
        sum ^= (uint8_t)*p++;
    if (*p != '*' || hex(p[1]) < 0 || (hex(p[1]) << 4 | hex(p[2])) != sum)
        return ERR_SUM;
    if (strncmp(s, "GPGGA", 5) != 0)
        return ERR_KIND;
    const int32_t lat = number(field(s, 2), NULL), lon = number(field(s, 4), NULL), n = number(field(s, 7), NULL);
    if (lat < 0 || lon < 0 || n < 0)
        return ERR_FIELD;
    fix->lat.degrees = lat / 100, fix->lat.minutes = lat % 100, fix->lat.side = *field(s, 3);
    fix->lon.degrees = lon / 100, fix->lon.minutes = lon % 100, fix->lon.side = *field(s, 5);
    fix->satellites = n;
    return OK;
}

int main(void)
{
    char line[100];
    size_t n = 0;
    fix_t fix;
    for (int c; (c = getchar()) != EOF;) {
        if (c == '\r')
            continue;
        if (c == '\n') {
            line[n] = '\0';
            n = 0;
            result_t r = parse(line, &fix);
            switch (r) {
            case OK:
                printf("%u%c%02u %u%c%02u by %u\n", fix.lat.degrees, fix.lat.side, fix.lat.minutes,
                       fix.lon.degrees, fix.lon.side, fix.lon.minutes, fix.satellites);
                break;
            case ERR_START:
            case ERR_SUM:
                puts("damaged");
                break;
            default:
                printf("error %d\n", r);
            }
        } else if (n < sizeof(line) - 1) {
            line[n++] = (char)c;
        }
    }
    return 0;
}
