/* A ticket gate by a table of states and events. */
#include <stdint.h>
#include <stdio.h>
#include <ctype.h>

typedef enum { ST_LOCKED, ST_UNLOCKED, ST_ALARM, ST_COUNT } state_t;
typedef enum { EV_COIN, EV_PUSH, EV_RESET, EV_NONE, EV_COUNT = EV_NONE } event_t;

typedef struct {
    state_t next;
    const char *say;
} transition_t;

static const transition_t table[ST_COUNT][EV_COUNT] = {
    [ST_LOCKED] = {
        [EV_COIN]  = { .next = ST_UNLOCKED, .say = "open" },
        [EV_PUSH]  = { .next = ST_ALARM,    .say = "alarm!" },
        [EV_RESET] = { ST_LOCKED, "nothing" },
    },
    [ST_ALARM] = {
        [EV_RESET] = { .say = "quiet", .next = ST_LOCKED },
        [EV_PUSH]  = { ST_ALARM, "still ringing" },
        [EV_COIN]  = { ST_ALARM, "coin kept" },
    },
    [ST_UNLOCKED] = {
        { ST_UNLOCKED, "thanks" },
        { ST_LOCKED, "passed" },
        { ST_LOCKED, "closed" },
    },
};

static event_t decode(int c)
{
    switch (toupper(c)) {
    case 'C': return EV_COIN;
    case 'P': return EV_PUSH;
    case 'R': {
        static unsigned resets;
        ++resets;
        printf("(reset %u) ", resets);
        return EV_RESET;
    }
    default:
        return EV_NONE;
    }
}

int main(void)
{
    state_t state = ST_LOCKED;
    uint32_t counts[ST_COUNT] = { 0 };
    int c;
    while ((c = getchar()) != EOF) {
        const event_t event = decode(c);
        if (event == EV_NONE)
            continue;
        const transition_t *t = &table[state][event];
        printf("%d -%c-> %d: %s\n", state, c, t->next, t->say);
        state = t->next;
        counts[state]++;
    }
    for (int i = 0; i < ST_COUNT; i++)
        printf("%d%c", (int)counts[i], i + 1 < ST_COUNT ? ' ' : '\n');
    return 0;
}
