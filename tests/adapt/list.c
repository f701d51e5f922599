/* Timers in a sorted list over a pool. */
#include <stdint.h>
#include <stdbool.h>
#include <stddef.h>
#include <stdio.h>

#define POOL 6

struct node {
    struct node *next;
    uint16_t due;
    char tag;
};

static struct node pool[POOL], *unused, *first;

static void pool_init(void)
{
    int i;
    unused = NULL;
    for (i = POOL - 1; i >= 0; i--) {
        pool[i].next = unused;
        unused = &pool[i];
    }
}

static bool insert(uint16_t due, char tag)
{
    struct node *n = unused, **at = &first;
    if (!n)
        return false;
    unused = n->next;
    while (*at != NULL && (*at)->due <= due)
        at = &(*at)->next;
    n->due = due;
    n->tag = tag;
    n->next = *at;
    *at = n;
    return true;
}

static struct node *expire(uint16_t now)
{
    struct node *n = first;
    if (n == NULL || n->due > now)
        return NULL;
    first = n->next;
    n->next = unused;
    unused = n;
    return n;
}

static void reverse(struct node **list)
{
    struct node *done = NULL;
    while (*list) {
        struct node *next = (*list)->next;
        (*list)->next = done;
        done = *list;
        *list = next;
    }
    *list = done;
}

int main(void)
{
    static const struct { uint16_t due; char tag; } wanted[] = { 5, 'a', 3, 'b', 9, 'c', 3, 'd', 1, 'e', 7, 'f', 2, 'g' };
    pool_init();
    for (size_t i = 0; i < sizeof wanted / sizeof wanted[0]; i++)
        printf("%c%s ", wanted[i].tag, insert(wanted[i].due, wanted[i].tag) ? "" : "!");
    putchar('\n');
    for (uint16_t now = 0; now < 6; now++)
        for (struct node *n; (n = expire(now)) != NULL;)
            printf("%u:%c ", now, n->tag);
    reverse(&first);
    for (const struct node *n = first; n; n = n->next)
        printf("%u:%c%s", n->due, n->tag, n->next ? " < " : "\n");
    return 0;
}
