/* String handling (C11 7.24), written in intermit's profile. There is no void * and no pointer cast: the mem functions work on
 * unsigned char, as 7.24.1 sees the bytes, the str functions on char, and strchr, strrchr and strstr take a string that isn't
 * const, since they give a place in it. tools/adapt makes copies for other types, and leaves out what isn't called; without it
 * each function that is included is compiled, used or not. */
#ifndef INTERMIT_STRING_H
#define INTERMIT_STRING_H

#include <stddef.h>

static unsigned char *memcpy(unsigned char *to, const unsigned char *from, size_t n)
{
    for (size_t i = 0; i < n; i++)
        to[i] = from[i];
    return to;
}

/* Pointers into different objects have no order, so whether `to` stands in what is moved is asked byte by byte. */
static unsigned char *memmove(unsigned char *to, const unsigned char *from, size_t n)
{
    for (size_t i = 1; i < n; i++) {
        if (from + i == to) {
            while (n > 0) {
                n--;
                to[n] = from[n];
            }
            return to;
        }
    }
    for (size_t i = 0; i < n; i++)
        to[i] = from[i];
    return to;
}

static unsigned char *memset(unsigned char *to, int c, size_t n)
{
    for (size_t i = 0; i < n; i++)
        to[i] = c;
    return to;
}

static int memcmp(const unsigned char *a, const unsigned char *b, size_t n)
{
    for (size_t i = 0; i < n; i++)
        if (a[i] != b[i])
            return a[i] - b[i];
    return 0;
}

static unsigned char *memchr(unsigned char *s, int c, size_t n)
{
    for (size_t i = 0; i < n; i++)
        if (s[i] == (unsigned char)c)
            return s + i;
    return 0;
}

static size_t strlen(const char *s)
{
    size_t n = 0;
    while (s[n])
        n++;
    return n;
}

static char *strcpy(char *to, const char *from)
{
    size_t i = 0;
    while ((to[i] = from[i]))
        i++;
    return to;
}

static char *strncpy(char *to, const char *from, size_t n)
{
    size_t i = 0;
    for (; i < n && from[i]; i++)
        to[i] = from[i];
    for (; i < n; i++)
        to[i] = 0;
    return to;
}

static char *strcat(char *to, const char *from)
{
    strcpy(to + strlen(to), from);
    return to;
}

static char *strncat(char *to, const char *from, size_t n)
{
    size_t end = strlen(to), i = 0;
    for (; i < n && from[i]; i++)
        to[end + i] = from[i];
    to[end + i] = 0;
    return to;
}

static int strcmp(const char *a, const char *b)
{
    size_t i = 0;
    while (a[i] && a[i] == b[i])
        i++;
    return a[i] - b[i];
}

static int strncmp(const char *a, const char *b, size_t n)
{
    for (size_t i = 0; i < n; i++)
        if (a[i] != b[i] || !a[i])
            return a[i] - b[i];
    return 0;
}

static char *strchr(char *s, int c)
{
    while (*s != (char)c) {
        if (!*s)
            return 0;
        s++;
    }
    return s;
}

static char *strrchr(char *s, int c)
{
    char *last = 0;
    for (; *s; s++)
        if (*s == (char)c)
            last = s;
    return (char)c ? last : s;
}

static size_t strspn(const char *s, const char *set)
{
    size_t n = 0;
    for (; s[n]; n++) {
        size_t i = 0;
        while (set[i] && set[i] != s[n])
            i++;
        if (!set[i])
            return n;
    }
    return n;
}

static size_t strcspn(const char *s, const char *set)
{
    size_t n = 0;
    for (; s[n]; n++)
        for (size_t i = 0; set[i]; i++)
            if (set[i] == s[n])
                return n;
    return n;
}

static char *strstr(char *s, const char *part)
{
    size_t n = strlen(part);
    for (;; s++) {
        if (strncmp(s, part, n) == 0)
            return s;
        if (!*s)
            return 0;
    }
}

#endif
