/* One of each construct that an ordinary program has and the profile writes otherwise. */
#include <limits.h>
#include <stdbool.h>
#include <stddef.h>
#include <stdint.h>
#include <stdio.h>
#include <stdlib.h>
#include <string.h>

#define COUNT(a) (sizeof(a) / sizeof((a)[0]))

typedef unsigned char byte;
typedef struct point { int x, y; } point;
typedef struct { point from, to; byte kind; } line;
typedef enum { RED = 1, GREEN, BLUE } color;
typedef int (*compare)(const int *a, const int *b);

struct tree;
struct tree { struct tree *left, *right; int key; } nodes[8], *root;

enum { MASK = 0b1010, LEAST = -2147483648 };

static byte matrix[3][4] = { 1, 2, 3, 4, 5, 6, [2][1] = 7 };
static line lines[] = { 1, 2, 3, 4, 5, { { 6 }, { .y = 7 }, 8 }, [3] = { .kind = 9 } };
static const char *const words[] = { [2] = "two", [0] = "zero", "one" };
static uint8_t text[] = { "bytes" };
static line nothing = { 0 };
extern int later;

static int ascending(const int *a, const int *b)
{
    return (*a > *b) - (*a < *b);
}

static int descending(const int *a, const int *b)
{
    return ascending(b, a);
}

static void sort(int *a, size_t n, compare order)
{
    for (size_t i = 1; i < n; i++)
        for (size_t j = i; j > 0 && order(&a[j - 1], &a[j]) > 0; j--) {
            int t = a[j];
            a[j] = a[j - 1], a[j - 1] = t;
        }
}

static int area(point a, const point b)
{
    a.x -= b.x;
    return abs(a.x * (a.y - b.y));
}

static int length(const point *p)
{
    return abs(p->x) + abs(p->y);
}

static int classify(int n)
{
    struct range { int low, high; };
    static const struct range ranges[] = { { 0, 9 }, { 10, 99 } };
    enum { SMALL = 1, MIDDLE, LARGE };
    typedef int point; /* hides the type of the file */
    point found = LARGE;
    for (point i = 0; i < (point)COUNT(ranges); i++)
        if (n >= ranges[i].low && n <= ranges[i].high)
            found = i == 0 ? SMALL : MIDDLE;
    return found;
}

static unsigned count(void)
{
    static unsigned n;
    {
        static unsigned n = 10;
        n++;
        later += n;
    }
    return ++n;
}

static void fill(void *to, int value, size_t n)
{
    byte *p = to;
    while (n--)
        *p++ = value;
}

static struct tree *insert(struct tree *t, int key)
{
    static byte used;
    if (t == NULL) {
        t = &nodes[used++];
        t->key = key;
    } else if (key < t->key)
        t->left = insert(t->left, key);
    else
        t->right = insert(t->right, key);
    return t;
}

static void walk(const struct tree *t, void (*visit)(int))
{
    if (!t)
        return;
    walk(t->left, visit);
    visit(t->key);
    walk(t->right, visit);
}

static void show(int n) { printf("%d ", n); }

static int chain(int n)
{
#define L(k) if (n == k) return k * 7 % 11; else
#define TEN(k) L(k) L(k + 1) L(k + 2) L(k + 3) L(k + 4) L(k + 5) L(k + 6) L(k + 7) L(k + 8) L(k + 9)
    TEN(0) TEN(10) TEN(20) TEN(30) TEN(40) TEN(50) TEN(60) TEN(70) TEN(80) TEN(90) TEN(100)
    return -1;
}

static int choose(color c)
{
    switch (c) {
    case RED:;
        int shade = 3;
        return shade;
    case GREEN: {
        register int twice = 2 * c;
        return twice;
    }
    case BLUE:
    default:
        break;
    }
    return INT_MIN + c;
}

static bool odd(unsigned n) { return n & 1; }
static bool many(int n) { bool b = n & 0x100; b |= n & 2; return b; }

int later = 5;

int main(void)
{
    volatile int ready = 1;
    int numbers[] = { 5, -3, 12, 0, 7 }, copy[5];
    point p = { .y = 4, .x = 3 }, q = { 0 };
    auto int i;
    memcpy(copy, numbers, sizeof numbers);
    sort(numbers, COUNT(numbers), ascending);
    sort(copy, 5, &descending);
    for (i = 0; i < 5; i++)
        printf("%d/%d%c", numbers[i], copy[i], ",\n"[i == 4]);
    q = (point){ 10, 20 };
    printf("area %d, length %d\n", area(p, q), length(&(point){ -1, 2 }));
    for (i = 0; i < 12; i++)
        printf("%u", ((byte *)matrix)[0] + matrix[i / 4][i % 4]);
    printf(" %u lines of %u\n", (unsigned)COUNT(lines), (unsigned)sizeof(line));
    for (size_t k = 0; k < COUNT(lines); k++) {
        const line *l = lines + k;
        printf("(%d,%d)-(%d,%d):%d ", l->from.x, l->from.y, l->to.x, l->to.y, l->kind);
    }
    puts(words[2]);
    printf("%s %s %s\n", words[0], words[1], (const char *)text);
    printf("%d%d%d\n", classify(5), classify(50), classify(500));
    count();
    printf("%u ", count());
    printf("%d\n", later);
    fill(text, 'x', 3);
    printf("%s|%5s|%-5s|\n", (char *)text, "ab", "cd");
    for (i = 0; i < 8; i++)
        root = insert(root, i * 37 % 11);
    walk(root, show);
    putchar('\n');
    printf("%d %d %d %d\n", chain(3), chain(57), chain(109), chain(110));
    printf("%d %d %d\n", choose(RED), choose(GREEN), choose(BLUE));
    printf("%d %d %d %d\n", odd(7), odd(8), many(0x100), many(1));
    compare order = ready ? descending : NULL;
    printf("%d %d\n", order != NULL && order == descending, order(&numbers[0], &numbers[1]));
    memset(numbers, 0xFF, sizeof numbers);
    memset(&q, 0, sizeof(q));
    printf("%d %d %d %x\n", numbers[4], q.x, LEAST == INT_MIN, MASK);
    lines[0] = nothing;
    return lines[0].kind + memcmp(text, "xxx", 3);
};
