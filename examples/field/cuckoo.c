/* A cuckoo filter (Fan and others 2014): 64 buckets of two fingerprints. The input's words, one a line, go in; then each is asked
 * for, and as many words that aren't there. */
enum { BUCKETS = 64, SLOTS = 2, KICKS = 32, LONGEST = 24 };
static uint16_t filter[BUCKETS][SLOTS];
static uint32_t state = 1;
static unsigned stored, refused, found, wrong;

uint32_t hash(const char *s, unsigned seed)
{
    uint32_t h = 5381 + seed;
    while (*s)
        h = h * 33 ^ (uint8_t)*s++;
    return h;
}

unsigned fingerprint(const char *s)
{
    unsigned f = hash(s, 77) >> 7 & 0xffff;
    return f ? f : 1;
}

unsigned other(unsigned bucket, unsigned f)
{
    return (bucket ^ f * 0x5bd1u >> 3) % BUCKETS;
}

int put(unsigned bucket, unsigned f)
{
    for (int i = 0; i < SLOTS; i++) {
        if (!filter[bucket][i]) {
            filter[bucket][i] = f;
            return 1;
        }
    }
    return 0;
}

int insert(const char *s)
{
    unsigned f = fingerprint(s), bucket = hash(s, 0) % BUCKETS;
    if (put(bucket, f) || put(other(bucket, f), f))
        return 1;
    for (int i = 0; i < KICKS; i++) {
        state = state * 1664525u + 1013904223u;
        int slot = state >> 30 & 1;
        unsigned kicked = filter[bucket][slot];
        filter[bucket][slot] = f;
        f = kicked;
        bucket = other(bucket, f);
        if (put(bucket, f))
            return 1;
    }
    return 0;
}

int holds(const char *s)
{
    unsigned f = fingerprint(s), one = hash(s, 0) % BUCKETS, two = other(one, f);
    for (int i = 0; i < SLOTS; i++)
        if (filter[one][i] == f || filter[two][i] == f)
            return 1;
    return 0;
}

void print_number(unsigned n)
{
    if (n >= 10)
        print_number(n / 10);
    putchar('0' + n % 10);
}

void use(char *word, int length)
{
    word[length] = 0;
    if (insert(word))
        stored++;
    else
        refused++;
    found += holds(word);
    word[0] = '~';
    wrong += holds(word);
}

int main(void)
{
    char word[LONGEST + 1];
    int length = 0, c;
    while ((c = getchar()) >= 0) {
        if (c != '\n') {
            if (length < LONGEST)
                word[length++] = c;
        } else if (length > 0) {
            use(word, length);
            length = 0;
        }
    }
    print_number(stored);
    putchar(' ');
    print_number(refused);
    putchar(' ');
    print_number(found);
    putchar(' ');
    print_number(wrong);
    putchar('\n');
    return refused;
}
