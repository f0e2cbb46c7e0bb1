// Sequences of numbers that come to an end.
extern "C" int printf(const char *, ...);

const int kept = 10000;
static unsigned short lengths[kept];

int length(unsigned long n) {
    if (n == 1) return 1;
    if (n < kept && lengths[n]) return lengths[n];
    int result = 1 + length(n % 2 ? 3 * n + 1 : n / 2);
    if (n < kept) lengths[n] = result;
    return result;
}

unsigned long highest(unsigned long n) {
    unsigned long top = n;
    while (n != 1) {
        if (n & 1) n = 3 * n + 1;
        else n >>= 1;
        if (n > top) top = n;
    }
    return top;
}

int digits(long n, int power(int)) {
    int sum = 0;
    do sum += power(n % 10); while (n /= 10);
    return sum;
}

int square(int x) { return x * x; }
int cube(int x) { return x * x * x; }
int same(int x) { return x; }

bool is_happy(int n) {
    while (n != 1 && n != 4) n = digits(n, square);
    return n == 1;
}

long reversed(long n) {
    long r = 0;
    for (; n; n /= 10) r = r * 10 + n % 10;
    return r;
}

int to_palindrome(long n, long &end) {
    for (int steps = 0; steps < 60; ++steps, n += reversed(n))
        if (n == reversed(n)) {
            end = n;
            return steps;
        }
    return -1;
}

int kaprekar(int n) {
    int steps = 0;
    while (n != 6174 && steps < 20) {
        int d[4], m = n;
        for (int i = 0; i < 4; ++i, m /= 10) d[i] = m % 10;
        for (int i = 0; i < 3; ++i)
            for (int j = 3; j > i; --j)
                if (d[j] > d[j - 1]) {
                    int t = d[j];
                    d[j] = d[j - 1];
                    d[j - 1] = t;
                }
        int down = ((d[0] * 10 + d[1]) * 10 + d[2]) * 10 + d[3];
        n = down - (int)(((d[3] * 10L + d[2]) * 10 + d[1]) * 10 + d[0]);
        ++steps;
    }
    return steps;
}

int main() {
    int best = 0, start = 0;
    for (int n = 1; n < 30000; ++n)
        if (int l = length(n)) if (l > best) {
            best = l;
            start = n;
        }
    printf("%d has %d steps, up to %lu\n", start, best, highest(start));
    for (unsigned long n = 27, i = 0; i < 10; ++i, n = n % 2 ? 3 * n + 1 : n / 2) printf("%lu%s", n, i == 9 ? " ..\n" : " ");
    printf("happy:");
    for (int n = 1; n < 50; ++n) if (is_happy(n)) printf(" %d", n);
    printf("\ncubes:");
    for (int n = 2; n < 1000; ++n) if (digits(n, cube) == n) printf(" %d", n);
    printf("\nroots:");
    for (long n = 9875; n > 9; n = digits(n, same)) printf(" %ld", n);
    printf("\n");
    static const int samples[] = { 56, 57, 59, 89, 98 };
    for (int i = 0; i < 5; ++i) {
        long end;
        if (int steps = to_palindrome(samples[i], end)) printf("%d: %d steps to %ld\n", samples[i], steps, end);
    }
    printf("%d %d %d\n", kaprekar(3524), kaprekar(2111), kaprekar(6174));
    return 0;
}
