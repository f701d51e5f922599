/* A log with levels and a printer of its own that takes any number of values. */
#include <stdarg.h>
#include <stdint.h>
#include <stdio.h>

enum level { DEBUG, INFO, ERROR };
static enum level least = INFO;

static void log_print(enum level level, const char *format, ...)
{
    va_list args;
    if (level < least)
        return;
    va_start(args, format);
    vprintf(format, args);
    va_end(args);
}

int main(void)
{
    log_print(INFO, "started %d\n", 1);
    log_print(DEBUG, "hidden\n");
    log_print(ERROR, "code %x\n", 0xbad);
    return 0;
}
