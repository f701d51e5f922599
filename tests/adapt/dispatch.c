/* A command shell over a table of functions. */
#include <stdint.h>
#include <stdio.h>
#include <string.h>
#include <stdlib.h>

typedef int (*handler_t)(int argc, char *argv[]);

struct command {
    const char *name;
    handler_t run;
    const char *help;
};

static int32_t total;

static int cmd_add(int argc, char *argv[]);
static int cmd_help(int argc, char *argv[]);

static int number(const char *s)
{
    int n = 0, sign = 1;
    if (*s == '-') {
        sign = -1;
        s++;
    }
    while (*s >= '0' && *s <= '9')
        n = n * 10 + (*s++ - '0');
    return sign * n;
}

static int cmd_clear(int argc, char *argv[])
{
    (void)argc;
    (void)argv;
    total = 0;
    return 0;
}

static const struct command commands[] = {
    { "add", cmd_add, "adds numbers" },
    { "clear", cmd_clear, "sets the total to 0" },
    { "help", cmd_help, NULL },
    { "noop", NULL, "does nothing" },
};

static int cmd_add(int argc, char *argv[])
{
    for (int i = 1; i < argc; i++)
        total += number(argv[i]);
    return argc > 1 ? 0 : -1;
}

static int cmd_help(int argc, char *argv[])
{
    (void)argc; (void)argv;
    for (size_t i = 0; i < sizeof(commands) / sizeof(*commands); i++)
        if (commands[i].help)
            printf("  %-8s%s\n", commands[i].name, commands[i].help);
    return 0;
}

static int execute(char *line)
{
    char *argv[8];
    int argc = 0;
    char *p = line;
    while (*p && argc < 8) {
        while (*p == ' ')
            *p++ = '\0';
        if (!*p)
            break;
        argv[argc++] = p;
        while (*p && *p != ' ')
            p++;
    }
    if (argc == 0)
        return 0;
    for (size_t i = 0; i < sizeof(commands) / sizeof(commands[0]); i++) {
        if (strcmp(argv[0], commands[i].name) == 0) {
            handler_t run = commands[i].run;
            return run ? run(argc, argv) : 0;
        }
    }
    printf("%s?\n", argv[0]);
    return -2;
}

int main(void)
{
    char line[80];
    int c, errors = 0;
    size_t n = 0;
    while ((c = getchar()) != EOF) {
        if (c != '\n') {
            if (n < sizeof line - 1)
                line[n++] = c;
            continue;
        }
        line[n] = 0;
        n = 0;
        int result = execute(line);
        if (result < 0)
            errors++;
        printf("[%d] total %ld\n", result, (long)total);
    }
    return errors ? EXIT_FAILURE : EXIT_SUCCESS;
}
