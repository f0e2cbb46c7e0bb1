// Searching in sorted numbers and in text.
extern "C" int printf(const char *, ...);

static const int table[] = { 2, 3, 5, 7, 7, 7, 11, 13, 17, 19, 23, 29, 31, 37, 41, 43 };
static const int count = sizeof(table) / sizeof(table[0]);

int linear(const int *a, int n, int x) {
    for (int i = 0; i < n; ++i) if (a[i] == x) return i;
    return -1;
}

int binary(const int *a, int n, int x, int &steps) {
    int low = 0, high = n - 1;
    for (steps = 0; low <= high; ++steps) {
        int middle = low + (high - low) / 2;
        if (a[middle] < x) low = middle + 1;
        else if (x < a[middle]) high = middle - 1;
        else return middle;
    }
    return -1;
}

const int *lower(const int *first, const int *last, int x) {
    while (long n = last - first) {
        const int *middle = first + n / 2;
        if (*middle < x) first = middle + 1;
        else last = middle;
    }
    return first;
}

const int *upper(const int *first, const int *last, int x) {
    while (first != last) {
        const int *middle = first + (last - first) / 2;
        if (x < *middle) last = middle; else first = middle + 1;
    }
    return first;
}

int recursive(const int *a, int low, int high, int x) {
    if (low > high) return -1;
    const int middle = (low + high) / 2;
    return a[middle] == x ? middle : a[middle] < x ? recursive(a, middle + 1, high, x) : recursive(a, low, middle - 1, x);
}

// the place of a word in a text, by the table of Knuth, Morris and Pratt
int find(const char *text, const char *word) {
    int next[32], n = 0;
    while (word[n]) ++n;
    if (!n) return 0;
    next[0] = -1;
    for (int i = 0, j = -1; i < n; next[++i] = ++j)
        while (j >= 0 && word[i] != word[j]) j = next[j];
    for (int i = 0, j = 0; text[i]; ) {
        while (j >= 0 && text[i] != word[j]) j = next[j];
        ++i;
        if (++j == n) return i - n;
    }
    return -1;
}

int main() {
    const int wanted[] = { 2, 7, 8, 23, 43, 44, 1 };
    for (unsigned i = 0; i < sizeof wanted / sizeof *wanted; ++i) {
        int x = wanted[i], steps;
        int found = binary(table, count, x, steps);
        printf("%2d: linear %d, binary %d in %d, recursive %d, between %d and %d\n", x, linear(table, count, x), found, steps,
               recursive(table, 0, count - 1, x), (int)(lower(table, table + count, x) - table), (int)(upper(table, table + count, x) - table));
    }
    const char *text = "abracadabra, abracadabra";
    const char *words[] = { "abra", "cad", "abracadabra, a", "bra,", "abrac", "x", "", "ra, abr", 0 };
    for (const char **w = words; *w; ++w) printf("'%s' at %d\n", *w, find(text, *w));
    return 0;
}
