// Divisors, powers and remainders.
extern "C" int printf(const char *, ...);

int gcd(int a, int b) {
    while (b) {
        int t = a % b;
        a = b;
        b = t;
    }
    return a < 0 ? -a : a;
}

long gcd(long a, long b) { return b ? gcd(b, a % b) : a < 0 ? -a : a; }
int gcd(const int *a, int n) { return n == 1 ? *a : gcd(*a, gcd(a + 1, n - 1)); }

unsigned binary(unsigned a, unsigned b) {
    if (!a || !b) return a | b;
    int twos = 0;
    for (; !((a | b) & 1); twos++) a >>= 1, b >>= 1;
    while (!(a & 1)) a >>= 1;
    do {
        while (!(b & 1)) b >>= 1;
        if (a > b) {
            unsigned t = a;
            a = b;
            b = t;
        }
        b -= a;
    } while (b);
    return a << twos;
}

long extended(long a, long b, long &x, long &y) {
    if (!b) {
        x = 1, y = 0;
        return a;
    }
    long next, rest, g = extended(b, a % b, next, rest);
    x = rest;
    y = next - a / b * rest;
    return g;
}

long power(long base, unsigned long exponent, long modulus) {
    long result = 1 % modulus;
    for (base %= modulus; exponent; exponent >>= 1) {
        if (exponent & 1) result = result * base % modulus;
        base = base * base % modulus;
    }
    return result;
}

long inverse(long a, long modulus) {
    long x, y;
    if (extended(a, modulus, x, y) != 1) return 0;
    return (x % modulus + modulus) % modulus;
}

long remainders(const long rests[], const long moduli[], int n) {
    long product = 1, sum = 0;
    for (int i = 0; i < n; ++i) product *= moduli[i];
    for (int i = 0; i < n; ++i) {
        const long other = product / moduli[i];
        sum += rests[i] * inverse(other % moduli[i], moduli[i]) * other;
    }
    return sum % product;
}

bool probably_prime(long n) {
    if (n < 4) return n > 1;
    if (n % 2 == 0) return false;
    long odd = n - 1;
    int twos = 0;
    while (odd % 2 == 0) odd /= 2, ++twos;
    static const int bases[] = { 2, 3, 5, 7 };
    for (int i = 0; i < 4; ++i) {
        if (bases[i] % n == 0) continue;
        long x = power(bases[i], odd, n);
        bool passes = x == 1 || x == n - 1;
        for (int j = 1; j < twos && !passes; ++j) {
            x = x * x % n;
            passes = x == n - 1;
        }
        if (!passes) return false;
    }
    return true;
}

int main() {
    const int numbers[4] = { 84, 126, 210, 42 * 5 };
    printf("%d %ld %d %u\n", gcd(1071, -462), gcd(6000000000L, 4500000000L), gcd(numbers, 4), binary(48u, 180));
    long x, y, g = extended(240, 46, x, y);
    printf("%ld = 240 * %ld + 46 * %ld\n", g, x, y);
    printf("%ld %ld %ld\n", power(2, 10, 1000), power(3, 200, 13), power(7, 0, 1));
    printf("%ld %ld\n", inverse(3, 11), inverse(6, 9));
    const long rests[] = { 2, 3, 2 }, moduli[] = { 3, 5, 7 };
    printf("%ld\n", remainders(rests, moduli, sizeof rests / sizeof *rests));
    for (long n = 1000000; n < 1000100; ++n) if (probably_prime(n)) printf("%ld ", n);
    printf("%d\n", probably_prime(561));
    return 0;
}
