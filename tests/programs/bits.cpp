// Tricks with bits.
extern "C" int printf(const char *, ...);

int ones(unsigned x) {
    int n = 0;
    for (; x; x &= x - 1) n++;
    return n;
}

int ones_by_table(unsigned x) {
    static const unsigned char table[16] = { 0, 1, 1, 2, 1, 2, 2, 3, 1, 2, 2, 3, 2, 3, 3, 4 };
    int n = 0;
    do n += table[x & 15]; while (x >>= 4);
    return n;
}

unsigned reversed(unsigned x) {
    x = (x & 0x55555555) << 1 | (x >> 1 & 0x55555555);
    x = (x & 0x33333333) << 2 | (x >> 2 & 0x33333333);
    x = (x & 0x0f0f0f0f) << 4 | (x >> 4 & 0x0f0f0f0f);
    return x << 24 | (x & 0xff00) << 8 | (x >> 8 & 0xff00) | x >> 24;
}

unsigned rotated(unsigned x, int by) { return by ? x << by | x >> (32 - by) : x; }
bool odd_parity(unsigned x) { x ^= x >> 16; x ^= x >> 8; x ^= x >> 4; return 0x6996 >> (x & 15) & 1; }
unsigned gray(unsigned x) { return x ^ x >> 1; }

unsigned from_gray(unsigned x) {
    for (int by = 1; by < 32; by <<= 1) x ^= x >> by;
    return x;
}

int highest(unsigned x) {
    int n = -1;
    while (x) x >>= 1, ++n;
    return n;
}

int lowest(unsigned x) {
    if (!x) return -1;
    int n = 0;
    for (int width = 16; width; width /= 2)
        if (!(x & (1u << width) - 1)) x >>= width, n += width;
    return n;
}

unsigned power_above(unsigned x) {
    --x;
    for (int by = 1; by <= 16; by *= 2) x |= x >> by;
    return x + 1;
}

unsigned next_with_as_many(unsigned x) {
    unsigned low = x & -x, carried = x + low;
    return carried | (x ^ carried) / low >> 2;
}

void binary(unsigned x, int width) {
    char text[33], *p = text;
    for (int i = width; i-- > 0;) *p++ = x >> i & 1 ? '1' : '0';
    *p = 0;
    printf("%s", text);
}

long morton(unsigned short x, unsigned short y) {
    long z = 0;
    for (int i = 0; i < 16; i++) z |= (long)(x >> i & 1) << 2 * i | (long)(y >> i & 1) << (2 * i + 1);
    return z;
}

int main() {
    static const unsigned samples[] = { 0u, 1u, 0x80000000u, 0xdeadbeefu, 4294967295u, 12345678u };
    for (unsigned i = 0; i < sizeof samples / sizeof(unsigned); i++) {
        unsigned x = samples[i];
        printf("%08x: %d %d %d, reversed %08x, rotated %08x, bits %d to %d, gray %08x %d\n", x, ones(x), ones_by_table(x), odd_parity(x),
               reversed(x), rotated(x, 12), lowest(x), highest(x), gray(x), from_gray(gray(x)) == x);
    }
    for (unsigned x = 0; x < 8; x++) {
        binary(gray(x), 3);
        printf(x == 7 ? "\n" : " ");
    }
    for (unsigned x = 7; x < 128; x = next_with_as_many(x)) printf("%u ", x);
    printf("\n%u %u %u\n", power_above(1), power_above(100), power_above(4097));
    printf("%ld %ld %ld\n", morton(1, 2), morton(255, 0), morton(65535, 65535));
    signed char small = (signed char)0xf0;
    printf("%d %d %d %d\n", small, small >> 2, ~small, (unsigned char)small >> 2);
    return 0;
}
