// Digits of pi and e, roots and fractions, by whole numbers alone.
extern "C" int putchar(int);
extern "C" int printf(const char *, ...);

// after Rabinowitz and Wagon
static void pi(int places) {
    const int most = 400;
    static int rests[most];
    int length = places * 10 / 3 + 1, nines = 0, held = 0, shown = 0;
    for (int i = 0; i < length; ++i) rests[i] = 2;
    for (int k = 0; shown < places; ++k) {
        int carry = 0;
        for (int i = length; i > 0; --i) {
            int x = 10 * rests[i - 1] + carry * i;
            rests[i - 1] = x % (2 * i - 1);
            carry = x / (2 * i - 1);
        }
        rests[0] = carry % 10;
        carry /= 10;
        switch (carry) {
        case 9:
            ++nines;
            break;
        case 10:
            putchar('1' + held);
            ++shown;
            for (; nines; --nines, ++shown) putchar('0');
            held = 0;
            break;
        default:
            if (k) {
                putchar('0' + held);
                if (++shown == 1) putchar('.');
            }
            held = carry;
            for (; nines; --nines, ++shown) putchar('9');
        }
    }
    putchar('\n');
}

static void e(int places) {
    int a[60], n = sizeof a / sizeof *a;
    for (int i = 0; i < n; ++i) a[i] = 1;
    printf("2.");
    while (places-- > 0) {
        int carry = 0;
        for (int i = n - 1; i >= 0; --i) {
            int x = a[i] * 10 + carry;
            a[i] = x % (i + 2);
            carry = x / (i + 2);
        }
        putchar('0' + carry);
    }
    putchar('\n');
}

static unsigned long root(unsigned long n, int of = 2) {
    unsigned long low = 0, high = n < 1ul << 31 ? n : 1ul << 31;
    while (low < high) {
        unsigned long middle = low + (high - low + 1) / 2, power = 1;
        bool above = false;
        for (int i = 0; i < of && !above; ++i)
            if (power > n / middle) above = true;
            else power *= middle;
        if (above) high = middle - 1;
        else low = middle;
    }
    return low;
}

static unsigned long root_by_bits(unsigned long n) {
    unsigned long result = 0, bit = 1ul << 62;
    while (bit > n) bit >>= 2;
    for (; bit; bit >>= 2)
        if (n >= result + bit) {
            n -= result + bit;
            result = (result >> 1) + bit;
        } else result >>= 1;
    return result;
}

static void decimals(int above, int below) {
    static int seen[1000];
    for (int i = 0; i < below; ++i) seen[i] = -1;
    char text[1000];
    int n = 0, rest = above % below;
    for (; rest && seen[rest] < 0; rest %= below) {
        seen[rest] = n;
        rest *= 10;
        text[n++] = '0' + rest / below;
    }
    printf("%d/%d = %d", above, below, above / below);
    for (int i = 0; i < n; ++i) {
        if (i == 0) putchar('.');
        if (rest && i == seen[rest]) putchar('(');
        putchar(text[i]);
    }
    printf(rest ? ")\n" : "\n");
}

static void continued(int above, int below) {
    printf("%d/%d = [", above, below);
    for (const char *between = ""; below; between = ", ") {
        printf("%s%d", between, above / below);
        int t = above % below;
        above = below;
        below = t;
    }
    printf("]\n");
}

int main() {
    pi(60);
    e(50);
    const unsigned long numbers[] = { 0, 1, 2, 99, 100, 1000000, 4294967295u, 2000000000000000000 };
    for (unsigned i = 0; i < sizeof numbers / sizeof numbers[0]; ++i) {
        unsigned long n = numbers[i];
        printf("%lu: %lu %lu %lu\n", n, root(n), root_by_bits(n), root(n, 3));
    }
    decimals(1, 7);
    decimals(1, 8);
    decimals(22, 6);
    decimals(5, 97);
    decimals(12, 4);
    continued(415, 93);
    continued(355, 113);
    return 0;
}
