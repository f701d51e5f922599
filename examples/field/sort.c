/* Numbers of the input sorted by quicksort (Hoare 1961), short runs by insertion. */
enum { MOST = 256, SHORT = 8 };
static int numbers[MOST];

int read_number(int *n)
{
    int c = getchar();
    while (c >= 0 && (c < '0' || c > '9'))
        c = getchar();
    if (c < 0)
        return 0;
    *n = 0;
    for (; c >= '0' && c <= '9'; c = getchar())
        *n = 10 * *n + c - '0';
    return 1;
}

void print_number(unsigned n)
{
    if (n >= 10)
        print_number(n / 10);
    putchar('0' + n % 10);
}

void insert(int *a, int n)
{
    for (int i = 1; i < n; i++) {
        int value = a[i], j = i;
        for (; j > 0 && a[j - 1] > value; j--)
            a[j] = a[j - 1];
        a[j] = value;
    }
}

void sort(int *a, int n)
{
    while (n > SHORT) {
        int pivot = a[n / 2], i = 0, j = n - 1;
        while (i <= j) {
            while (a[i] < pivot)
                i++;
            while (a[j] > pivot)
                j--;
            if (i <= j) {
                int kept = a[i];
                a[i++] = a[j];
                a[j--] = kept;
            }
        }
        sort(a, j + 1);
        a += i;
        n -= i;
    }
    insert(a, n);
}

int main(void)
{
    int n = 0;
    while (n < MOST && read_number(&numbers[n]))
        n++;
    sort(numbers, n);
    for (int i = 0; i < n; i++) {
        print_number(numbers[i]);
        putchar(i % 12 < 11 && i + 1 < n ? ' ' : '\n');
    }
    return n & 127;
}
