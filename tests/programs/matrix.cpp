// Matrices of integers.
extern "C" int printf(const char *, ...);

const int n = 4;
typedef long Row[n];

static void show(const char *name, const long m[n][n]) {
    printf("%s\n", name);
    for (int i = 0; i < n; i++) {
        for (int j = 0; j < n; j++) printf("%6ld", m[i][j]);
        printf("\n");
    }
}

static void fill(Row *m, long of(int, int)) {
    for (int i = 0; i < n; i++) for (int j = 0; j < n; j++) m[i][j] = of(i, j);
}

static void multiply(const Row *a, const Row *b, Row *c) {
    for (int i = 0; i < n; i++)
        for (int j = 0; j < n; j++) {
            long sum = 0;
            for (int k = 0; k < n; k++) sum += a[i][k] * b[k][j];
            c[i][j] = sum;
        }
}

static void transpose(long (&m)[n][n]) {
    for (int i = 1; i < n; i++)
        for (int j = 0; j < i; j++) {
            long x = m[i][j];
            m[i][j] = m[j][i];
            m[j][i] = x;
        }
}

static void assign(Row *to, const Row *from) {
    for (const Row *end = from + n; from != end; ++from, ++to)
        for (int j = 0; j < n; j++) (*to)[j] = (*from)[j];
}

static long identity(int i, int j) { return i == j; }
static long sample(int i, int j) { return (i * 7 + j * 3) % 5 - 1; }

static void power(const Row *base, unsigned exponent, Row *result) {
    long square[n][n], product[n][n];
    assign(square, base);
    fill(result, identity);
    for (; exponent; exponent >>= 1) {
        if (exponent & 1) {
            multiply(result, square, product);
            assign(result, product);
        }
        multiply(square, square, product);
        assign(square, product);
    }
}

// without fractions, after Bareiss
static long determinant(const Row *from) {
    long m[n][n], last = 1;
    int sign = 1;
    assign(m, from);
    for (int k = 0; k < n - 1; k++) {
        if (!m[k][k]) {
            int other = k + 1;
            while (other < n && !m[other][k]) other++;
            if (other == n) return 0;
            for (int j = 0; j < n; j++) {
                long x = m[k][j];
                m[k][j] = m[other][j];
                m[other][j] = x;
            }
            sign = -sign;
        }
        for (int i = k + 1; i < n; i++)
            for (int j = k + 1; j < n; j++) m[i][j] = (m[i][j] * m[k][k] - m[i][k] * m[k][j]) / last;
        last = m[k][k];
    }
    return sign * m[n - 1][n - 1];
}

static long trace(const Row *m) {
    long sum = 0;
    for (int i = 0; i < n; ++i) sum += m[i][i];
    return sum;
}

int main() {
    long a[n][n], b[n][n], c[n][n];
    fill(a, sample);
    show("sample", a);
    assign(b, a);
    transpose(b);
    multiply(a, b, c);
    show("with its transpose", c);
    power(a, 5, c);
    show("fifth power", c);
    printf("traces %ld %ld, determinants %ld %ld\n", trace(a), trace(c), determinant(a), determinant(c));
    const long magic[n][n] = { { 16, 3, 2, 13 }, { 5, 10, 11, 8 }, { 9, 6, 7, 12 }, { 4, 15, 14, 1 } };
    for (int i = 0; i < n; i++) {
        long row = 0, column = 0;
        for (int j = 0; j < n; j++) row += magic[i][j], column += magic[j][i];
        printf("%ld %ld ", row, column);
    }
    printf("%ld\n", determinant(magic));
    return 0;
}
