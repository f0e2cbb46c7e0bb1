// Tables that are filled step by step.
extern "C" int printf(const char *, ...);

const int most = 64;
static int max(int a, int b) { return a > b ? a : b; }
static int min(int a, int b) { return a < b ? a : b; }
static int min(int a, int b, int c) { return min(min(a, b), c); }

static int knapsack(const int weights[], const int values[], int n, int room, unsigned &taken) {
    static int best[16][most + 1];
    for (int w = 0; w <= room; w++) best[0][w] = 0;
    for (int i = 1; i <= n; i++)
        for (int w = 0; w <= room; w++) {
            best[i][w] = best[i - 1][w];
            if (weights[i - 1] <= w) best[i][w] = max(best[i][w], best[i - 1][w - weights[i - 1]] + values[i - 1]);
        }
    taken = 0;
    for (int i = n, w = room; i > 0; i--)
        if (best[i][w] != best[i - 1][w]) {
            taken |= 1u << (i - 1);
            w -= weights[i - 1];
        }
    return best[n][room];
}

static int coins(const int kinds[], int n, int amount) {
    int fewest[most * 2];
    fewest[0] = 0;
    for (int a = 1; a <= amount; ++a) {
        fewest[a] = 1000;
        for (int i = 0; i < n; ++i)
            if (kinds[i] <= a) fewest[a] = min(fewest[a], fewest[a - kinds[i]] + 1);
    }
    return fewest[amount];
}

static long ways(const int *kinds, int n, int amount) {
    long count[most * 2] = { 1 };
    for (const int *end = kinds + n; kinds != end; ++kinds)
        for (int a = *kinds; a <= amount; ++a) count[a] += count[a - *kinds];
    return count[amount];
}

static int distance(const char *a, const char *b) {
    int row[most], n = 0;
    while (b[n]) row[n] = n, n++;
    row[n] = n;
    for (int i = 1; *a; ++a, ++i) {
        int corner = row[0];
        row[0] = i;
        for (int j = 1; j <= n; ++j) {
            int above = row[j];
            row[j] = min(above + 1, row[j - 1] + 1, corner + (*a != b[j - 1]));
            corner = above;
        }
    }
    return row[n];
}

static int common(const char *a, const char *b, char *to) {
    static int table[most][most];
    int m = 0, n = 0;
    for (; a[m]; ++m) ;
    for (; b[n]; ++n) ;
    for (int i = m; i >= 0; --i)
        for (int j = n; j >= 0; --j)
            if (i == m || j == n) table[i][j] = 0;
            else if (a[i] == b[j]) table[i][j] = table[i + 1][j + 1] + 1;
            else table[i][j] = max(table[i + 1][j], table[i][j + 1]);
    for (int i = 0, j = 0; i < m && j < n;)
        if (a[i] == b[j]) *to++ = a[i], ++i, ++j;
        else if (table[i + 1][j] >= table[i][j + 1]) ++i;
        else ++j;
    *to = 0;
    return table[0][0];
}

static int increasing(const int *a, int n) {
    int length[most], result = 0;
    for (int i = 0; i < n; ++i) {
        length[i] = 1;
        for (int j = 0; j < i; ++j) if (a[j] < a[i] && length[j] >= length[i]) length[i] = length[j] + 1;
        result = max(result, length[i]);
    }
    return result;
}

int main() {
    const int weights[] = { 12, 2, 1, 4, 1, 9, 7 }, values[] = { 4, 2, 1, 10, 2, 8, 7 };
    unsigned taken;
    for (int room = 0; room <= 40; room += 8) {
        int value = knapsack(weights, values, 7, room, taken);
        printf("room %d: value %d, taken", room, value);
        for (int i = 0; i < 7; i++) if (taken >> i & 1) printf(" %d", i);
        printf("\n");
    }
    static const int kinds[] = { 1, 7, 10, 25 };
    printf("%d %d %d %ld %ld\n", coins(kinds, 4, 14), coins(kinds, 4, 30), coins(kinds, 4, 99), ways(kinds, 4, 30), ways(kinds, 4, 100));
    printf("%d %d %d\n", distance("kitten", "sitting"), distance("", "abc"), distance("saturday", "sunday"));
    char text[most];
    int n = common("AGGTABQRXY", "GXTXAYBRY", text);
    printf("%d %s\n", n, text);
    const int numbers[] = { 10, 22, 9, 33, 21, 50, 41, 60, 80, 3 };
    printf("%d\n", increasing(numbers, 10));
    return 0;
}
