/* Of the general utilities (C11 7.22): what needs no memory to be handed out and no way to end a program. */
#ifndef INTERMIT_STDLIB_H
#define INTERMIT_STDLIB_H

#include <stddef.h>

#define EXIT_SUCCESS 0
#define EXIT_FAILURE 1

static int abs(int n)
{
    return n < 0 ? -n : n;
}

static long labs(long n)
{
    return n < 0 ? -n : n;
}

static int atoi(const char *s)
{
    int n = 0, minus = 0;
    while (*s == ' ' || (*s >= '\t' && *s <= '\r'))
        s++;
    if (*s == '-' || *s == '+')
        minus = *s++ == '-';
    for (; *s >= '0' && *s <= '9'; s++)
        n = 10 * n + (*s - '0');
    return minus ? -n : n;
}

#endif
