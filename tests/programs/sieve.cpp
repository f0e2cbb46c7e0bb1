// Prime numbers.
extern "C" int printf(const char *, ...);

const int most = 2000;
static bool composite[most + 1];
static int primes[most / 2], count;

static void sieve() {
    composite[0] = composite[1] = true;
    for (int i = 2; i <= most; i++) {
        if (composite[i]) continue;
        primes[count++] = i;
        for (long j = (long)i * i; j <= most; j += i) composite[j] = true;
    }
}

static bool is_prime(int n) { return n >= 0 && n <= most && !composite[n]; }

static void factors(int n) {
    printf("%d =", n);
    const char *between = " ";
    for (const int *p = primes; n > 1 && p < primes + count; ++p) {
        int times = 0;
        while (n % *p == 0) n /= *p, ++times;
        if (!times) continue;
        printf("%s%d", between, *p);
        if (times > 1) printf("^%d", times);
        between = " * ";
    }
    if (n > 1) printf("%s%d", between, n);
    printf("\n");
}

static int totient(int n) {
    int result = n;
    for (int d = 2; d * d <= n; ++d)
        if (n % d == 0) {
            do n /= d; while (n % d == 0);
            result -= result / d;
        }
    return n > 1 ? result - result / n : result;
}

static int divisors(int n) {
    int sum = 0;
    for (int d = 1; d < n; d++) if (n % d == 0) sum += d;
    return sum;
}

int main() {
    sieve();
    printf("%d primes up to %d, the last %d\n", count, most, primes[count - 1]);
    for (int i = 0; i < 25; i++) printf("%d%c", primes[i], i % 10 == 9 || i == 24 ? '\n' : ' ');
    for (int i = 3, shown = 0; shown < 8; i += 2)
        if (is_prime(i) && is_prime(i + 2)) {
            printf("(%d, %d) ", i, i + 2);
            ++shown;
        }
    printf("\n");
    for (int even = 100; even <= 106; even += 2)
        for (int p = 2; ; p++)
            if (is_prime(p) && is_prime(even - p)) {
                printf("%d = %d + %d\n", even, p, even - p);
                break;
            }
    const int samples[] = { 360, 1001, 1999, 65536, 999983, 30030 };
    for (unsigned i = 0; i < sizeof samples / sizeof samples[0]; i++) factors(samples[i]);
    for (int n = 1; n <= 12; n++) printf("%d ", totient(n));
    printf("\nperfect:");
    for (int n = 2; n < 1000; n++) if (divisors(n) == n) printf(" %d", n);
    printf("\n");
    return 0;
}
