/* Variable arguments (C11 7.16): intermit has none. With tools/adapt the names stand, so that it tells which function has them. */
#ifndef INTERMIT_ADAPT
#error "intermit has no functions with a variable number of arguments"
#else
typedef int va_list;
#define va_start(list, last) ((void)(list))
#define va_end(list) ((void)(list))
#endif
