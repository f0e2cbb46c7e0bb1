// Large natural numbers as arrays of digits.
extern "C" int putchar(int);
extern "C" int printf(const char *, ...);

const int size = 80;
const int base = 10000;
typedef int Number[size];       // the least digit first

void set(int *to, int value) {
    for (int i = 0; i < size; i++, value /= base) to[i] = value % base;
}

void assign(int *to, const int *from) {
    for (const int *end = from + size; from != end;) *to++ = *from++;
}

void add(int *to, const int *from) {
    int carry = 0;
    for (int i = 0; i < size; i++) {
        to[i] += from[i] + carry;
        carry = to[i] >= base;
        if (carry) to[i] -= base;
    }
}

void multiply(int *to, int by) {
    long carry = 0;
    for (int i = 0; i < size; i++) {
        carry += (long)to[i] * by;
        to[i] = (int)(carry % base);
        carry /= base;
    }
}

void multiply(int *to, const int *by) {
    Number sum;
    set(sum, 0);
    for (int i = 0; i < size; i++) {
        if (!to[i]) continue;
        long carry = 0;
        for (int j = 0; i + j < size; j++) {
            carry += sum[i + j] + (long)to[i] * by[j];
            sum[i + j] = (int)(carry % base);
            carry /= base;
        }
    }
    assign(to, sum);
}

int divide(int *a, int by) {
    long rest = 0;
    for (int i = size; i-- > 0;) {
        rest = rest * base + a[i];
        a[i] = (int)(rest / by);
        rest %= by;
    }
    return (int)rest;
}

bool is_zero(const int *a) {
    for (int i = 0; i < size; ++i) if (a[i]) return false;
    return true;
}

void print(const int *a, char end = '\n') {
    int i = size - 1;
    while (i > 0 && !a[i]) --i;
    printf("%d", a[i]);
    while (i-- > 0) printf("%04d", a[i]);
    putchar(end);
}

int digits(const int *a) {
    Number rest;
    int sum = 0;
    for (assign(rest, a); !is_zero(rest); ) sum += divide(rest, 10);
    return sum;
}

int main() {
    Number a, b, c;
    set(a, 1);
    for (int n = 1; n <= 50; ++n) {
        multiply(a, n);
        if (n % 10 == 0) {
            printf("%d! = ", n);
            print(a);
        }
    }
    printf("digits of 50!: %d\n", digits(a));
    set(a, 0);
    set(b, 1);
    for (int i = 0; i < 300; ++i) {
        assign(c, b);
        add(b, a);
        assign(a, c);
    }
    printf("fib(300) = ");
    print(a);
    set(a, 2);
    for (int i = 0; i < 8; ++i) {
        assign(b, a);
        multiply(a, b);
    }
    printf("2^256 = ");
    print(a, ' ');
    printf("mod 97 is %d\n", divide(a, 97));
    return 0;
}
