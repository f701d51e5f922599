/* Activity recognition: windows of a three-axis accelerometer are told to be still or moving by the nearest of two models, mean
 * and deviation. The first windows of the input train the models; each sample is three bytes, less 128. */
enum { WINDOW = 8, TRAINING = 4 };
struct sample { int x, y, z; };
struct features { int mean, deviation; };
static struct sample window[WINDOW];
static struct features still[TRAINING], moving[TRAINING];
static int stills, movings;

int read_window(void)
{
    for (int i = 0; i < WINDOW; i++) {
        int x = getchar(), y = getchar(), z = getchar();
        if (z < 0)
            return 0;
        window[i].x = x - 128;
        window[i].y = y - 128;
        window[i].z = z - 128;
    }
    return 1;
}

int root(int n)
{
    int low = 0, high = 300;
    while (low < high) {
        int middle = (low + high + 1) / 2;
        if (middle * middle <= n)
            low = middle;
        else
            high = middle - 1;
    }
    return low;
}

int magnitude(const struct sample *s)
{
    return root(s->x * s->x + s->y * s->y + s->z * s->z);
}

void measure(struct features *f)
{
    int sum = 0, squares = 0;
    for (int i = 0; i < WINDOW; i++)
        sum += magnitude(&window[i]);
    f->mean = sum / WINDOW;
    for (int i = 0; i < WINDOW; i++) {
        int away = magnitude(&window[i]) - f->mean;
        squares += away * away;
    }
    f->deviation = root(squares / WINDOW);
}

int away(const struct features *a, const struct features *b)
{
    int mean = a->mean - b->mean, deviation = a->deviation - b->deviation;
    return mean * mean + deviation * deviation;
}

int nearest(const struct features *models, const struct features *f)
{
    int least = away(models, f);
    for (int i = 1; i < TRAINING; i++) {
        int other = away(models + i, f);
        if (other < least)
            least = other;
    }
    return least;
}

void print_number(unsigned n)
{
    if (n >= 10)
        print_number(n / 10);
    putchar('0' + n % 10);
}

int main(void)
{
    struct features f;
    for (int i = 0; i < TRAINING && read_window(); i++)
        measure(&still[i]);
    for (int i = 0; i < TRAINING && read_window(); i++)
        measure(&moving[i]);
    while (read_window()) {
        measure(&f);
        if (nearest(moving, &f) < nearest(still, &f)) {
            movings++;
            putchar('m');
        } else {
            stills++;
            putchar('.');
        }
    }
    putchar('\n');
    print_number(stills);
    putchar(' ');
    print_number(movings);
    putchar('\n');
    return movings;
}
