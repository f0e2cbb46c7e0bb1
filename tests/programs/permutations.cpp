// Permutations, combinations, subsets and partitions.
extern "C" int putchar(int);
extern "C" int printf(const char *, ...);

static void swap(char *a, char *b) {
    char c = *a;
    *a = *b;
    *b = c;
}

static int shown;

static void show(const char *s) {
    printf(shown++ % 6 == 5 ? "%s\n" : "%s ", s);
}

static void end() {
    if (shown % 6) putchar('\n');
    shown = 0;
}

static void heap(char *s, int n, void visit(const char *)) {
    if (n <= 1) {
        visit(s);
        return;
    }
    for (int i = 0; i < n; i++) {
        heap(s, n - 1, visit);
        if (i < n - 1) swap(n % 2 ? s : s + i, s + n - 1);
    }
}

static bool next(char *s, int n) {
    int i = n - 2;
    while (i >= 0 && s[i] >= s[i + 1]) --i;
    if (i < 0) return false;
    int j = n - 1;
    while (s[j] <= s[i]) --j;
    swap(s + i, s + j);
    for (int low = i + 1, high = n - 1; low < high; ++low, --high) swap(s + low, s + high);
    return true;
}

static void choose(const char *from, int k, char *to, int taken = 0) {
    if (taken == k) {
        to[taken] = 0;
        show(to);
        return;
    }
    for (; *from; ++from) {
        to[taken] = *from;
        choose(from + 1, k, to, taken + 1);
    }
}

static void subsets(const char *of, int n) {
    for (unsigned mask = 0; mask < 1u << n; ++mask) {
        char text[16], *p = text;
        *p++ = '{';
        for (int i = 0; i < n; ++i) if (mask & 1 << i) *p++ = of[i];
        *p++ = '}';
        *p = '\0';
        show(text);
    }
}

static int partitions(int n, int most, int *parts, int count, bool print) {
    if (n == 0) {
        if (print) {
            for (int i = 0; i < count; ++i) printf(i ? "+%d" : "%d", parts[i]);
            putchar(' ');
        }
        return 1;
    }
    int total = 0;
    for (int part = most < n ? most : n; part > 0; --part) {
        parts[count] = part;
        total += partitions(n - part, part, parts, count + 1, print);
    }
    return total;
}

static int rank(const char *s, int n) {
    int result = 0;
    for (int i = 0; i < n; ++i) {
        int smaller = 0;
        for (int j = i + 1; j < n; ++j) smaller += s[j] < s[i];
        result = result * (n - i) + smaller;
    }
    return result;
}

int main() {
    char word[] = "abc", sorted[] = "aabc", room[8];
    heap(word, 3, show);
    end();
    do show(sorted); while (next(sorted, 4));
    end();
    choose("abcde", 3, room);
    end();
    subsets("xyz", 3);
    end();
    int parts[32];
    int count = partitions(6, 6, parts, 0, true);
    printf("\n%d %d\n", count, partitions(20, 20, parts, 0, false));
    printf("%d %d %d\n", rank("0123", 4), rank("3210", 4), rank("2013", 4));
    return 0;
}
