// Functions that call themselves and one another.
extern "C" int putchar(int);
extern "C" int printf(const char *, ...);

static int moves;

void hanoi(int n, char from = 'A', char to = 'C', char by = 'B') {
    if (n == 0) return;
    hanoi(n - 1, from, by, to);
    if (++moves <= 7) printf("%c%c ", from, to);
    hanoi(n - 1, by, to, from);
}

int ackermann(int m, int n) {
    return m == 0 ? n + 1 : n == 0 ? ackermann(m - 1, 1) : ackermann(m - 1, ackermann(m, n - 1));
}

long fibonacci(int n) {
    static long known[91];
    if (n < 2) return n;
    if (long f = known[n]) return f;
    return known[n] = fibonacci(n - 1) + fibonacci(n - 2);
}

int male(int);
int female(int n) { return n ? n - male(female(n - 1)) : 1; }
int male(int n) { return n ? n - female(male(n - 1)) : 0; }

bool odd(unsigned n);
bool even(unsigned n) { return n == 0 || odd(n - 1); }
bool odd(unsigned n) { return n != 0 && even(n - 1); }

int mccarthy(int n) { return n > 100 ? n - 10 : mccarthy(mccarthy(n + 11)); }
int tak(int x, int y, int z) { return y < x ? tak(tak(x - 1, y, z), tak(y - 1, z, x), tak(z - 1, x, y)) : z; }

long binomial(int n, int k) {
    if (k < 0 || k > n) return 0;
    if (k == 0 || k == n) return 1;
    static long rows[40][40];
    long &kept = rows[n][k];
    if (!kept) kept = binomial(n - 1, k - 1) + binomial(n - 1, k);
    return kept;
}

long catalan(int n) {
    if (n == 0) return 1;
    long sum = 0;
    for (int i = 0; i < n; ++i) sum += catalan(i) * catalan(n - 1 - i);
    return sum;
}

void brackets(int open, int close, char *to, const char *from) {
    if (open == 0 && close == 0) {
        *to = 0;
        printf("%s ", from);
        return;
    }
    if (open) {
        *to = '(';
        brackets(open - 1, close + 1, to + 1, from);
    }
    if (close) {
        *to = ')';
        brackets(open, close - 1, to + 1, from);
    }
}

void in_base(unsigned long n, unsigned base) {
    if (n >= base) in_base(n / base, base);
    putchar("0123456789abcdefghijklmnopqrstuvwxyz"[n % base]);
}

void ruler(int level, int most) {
    if (!level) return;
    ruler(level - 1, most);
    for (int i = 0; i < level; ++i) putchar('-');
    putchar(' ');
    ruler(level - 1, most);
}

int main() {
    hanoi(3);
    hanoi(9);
    printf("%d moves\n", moves);
    for (int m = 0; m < 4; ++m) printf("%d ", ackermann(m, 3));
    printf("\n%ld %ld\n", fibonacci(50), fibonacci(90));
    for (int n = 0; n < 12; ++n) printf("%d/%d ", female(n), male(n));
    printf("\n%d %d %d\n", even(100), odd(100), even(7));
    printf("%d %d %d\n", mccarthy(1), mccarthy(99), mccarthy(150));
    printf("%d\n", tak(8, 4, 2));
    printf("%ld %ld %ld\n", binomial(5, 2), binomial(30, 15), binomial(3, 4));
    for (int n = 0; n < 10; ++n) printf("%ld ", catalan(n));
    char text[9];
    putchar('\n');
    brackets(3, 0, text, text);
    putchar('\n');
    const unsigned bases[] = { 2, 8, 10, 16, 36 };
    for (unsigned i = 0; i < sizeof bases / sizeof *bases; ++i) {
        in_base(3735928559ul, bases[i]);
        putchar(i == 4 ? '\n' : ' ');
    }
    ruler(4, 4);
    putchar('\n');
    return 0;
}
