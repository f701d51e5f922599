/* Shortest paths (Dijkstra 1959) from node 0 over a matrix of distances that the input gives: the number of nodes, then the
 * matrix row by row in digits, 0 where there is no edge. */
enum { NODES = 24, FAR = 1000000 };
static int edges[NODES][NODES];
static int distance[NODES], previous[NODES];
static uint8_t is_done[NODES];

int read_number(void)
{
    int c = getchar(), n = 0;
    while (c >= 0 && (c < '0' || c > '9'))
        c = getchar();
    for (; c >= '0' && c <= '9'; c = getchar())
        n = 10 * n + c - '0';
    return n;
}

void print_number(unsigned n)
{
    if (n >= 10)
        print_number(n / 10);
    putchar('0' + n % 10);
}

int nearest(int nodes)
{
    int best = -1;
    for (int i = 0; i < nodes; i++)
        if (!is_done[i] && distance[i] < FAR && (best < 0 || distance[i] < distance[best]))
            best = i;
    return best;
}

void print_path(int node)
{
    if (previous[node] >= 0) {
        print_path(previous[node]);
        putchar('-');
    }
    print_number(node);
}

int main(void)
{
    int nodes = read_number(), at, sum = 0;
    if (nodes > NODES)
        return 1;
    for (int i = 0; i < nodes; i++) {
        for (int j = 0; j < nodes; j++)
            edges[i][j] = read_number();
        distance[i] = i == 0 ? 0 : FAR;
        previous[i] = -1;
    }
    while ((at = nearest(nodes)) >= 0) {
        is_done[at] = 1;
        for (int i = 0; i < nodes; i++) {
            int through = distance[at] + edges[at][i];
            if (edges[at][i] && through < distance[i]) {
                distance[i] = through;
                previous[i] = at;
            }
        }
    }
    for (int i = 1; i < nodes; i++) {
        if (distance[i] == FAR)
            continue;
        print_path(i);
        putchar(' ');
        print_number(distance[i]);
        putchar('\n');
        sum += distance[i];
    }
    return sum & 127;
}
