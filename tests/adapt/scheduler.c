/* A cooperative scheduler: tasks with periods, a pointer to a function and a context each. */
#include <stdint.h>
#include <stdbool.h>
#include <stddef.h>
#include <stdio.h>

#define MAX_TASKS 6

struct task_ctx {
    const char *name;
    uint16_t runs;
};

typedef void (*task_fn)(struct task_ctx *ctx);

typedef struct {
    task_fn fn;
    struct task_ctx *ctx;
    uint16_t period, left;
    bool once;
} task_t;

static task_t tasks[MAX_TASKS];

static bool task_add(task_fn fn, struct task_ctx *ctx, uint16_t period, bool once)
{
    for (uint8_t i = 0; i < MAX_TASKS; i++) {
        if (tasks[i].fn == NULL) {
            tasks[i] = (task_t){ .fn = fn, .ctx = ctx, .period = period, .left = period, .once = once };
            return true;
        }
    }
    return false;
}

static void blink(struct task_ctx *ctx)
{
    ctx->runs++;
    putchar(ctx->runs & 1 ? '*' : '.');
}

static void report(struct task_ctx *ctx)
{
    printf("[%s %u]", ctx->name, ++ctx->runs);
}

static void start(struct task_ctx *ctx)
{
    static struct task_ctx late = { "late", 0 };
    report(ctx);
    task_add(&report, &late, 5, false);
}

static void schedule(void)
{
    for (size_t i = 0; i < MAX_TASKS; i++) {
        task_t *t = &tasks[i];
        if (!t->fn || --t->left > 0)
            continue;
        t->left = t->period;
        (*t->fn)(t->ctx);
        if (t->once)
            t->fn = NULL;
    }
}

int main(void)
{
    static struct task_ctx led = { "led" }, log = { "log" }, boot = { "boot" };
    task_add(blink, &led, 1, false);
    task_add(report, &log, 7, false);
    task_add(start, &boot, 3, true);
    for (volatile int tick = 0; tick < 24; tick++)
        schedule();
    putchar('\n');
    return led.runs + log.runs;
}
