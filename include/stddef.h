/* Common definitions (C11 7.19). intermit predeclares size_t; a null pointer is written 0. There is no offsetof. */
#ifndef INTERMIT_STDDEF_H
#define INTERMIT_STDDEF_H

typedef unsigned int size_t;
typedef int ptrdiff_t;

#ifndef NULL
#define NULL 0
#endif

#endif
