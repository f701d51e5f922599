/* Input and output (C11 7.21): the two functions that intermit has. */
#ifndef INTERMIT_STDIO_H
#define INTERMIT_STDIO_H

#include <stddef.h>

#define EOF (-1)

int getchar(void);
int putchar(int c);

#endif
