// Check sums with and without tables.
extern "C" int printf(const char *, ...);

static unsigned table[256];

static void make_table() {
    for (unsigned i = 0; i < 256; ++i) {
        unsigned c = i;
        for (int k = 0; k < 8; ++k) c = c & 1 ? 0xedb88320 ^ c >> 1 : c >> 1;
        table[i] = c;
    }
}

static unsigned crc32(const char *s, unsigned long n, unsigned crc = 0) {
    static bool made = false;
    if (!made) {
        make_table();
        made = true;
    }
    crc = ~crc;
    while (n--) crc = table[(crc ^ *s++) & 0xff] ^ crc >> 8;
    return ~crc;
}

static unsigned crc32_by_bits(const char *s, unsigned long n) {
    unsigned crc = 0xffffffff;
    for (; n > 0; --n, ++s) {
        crc ^= (unsigned char)*s;
        for (int k = 8; k; --k) {
            unsigned mask = -(crc & 1);
            crc = crc >> 1 ^ 0xedb88320u & mask;
        }
    }
    return crc ^ 0xffffffffu;
}

static unsigned short crc16(const char *s, unsigned long n, unsigned short polynomial, unsigned short start) {
    unsigned short crc = start;
    for (const char *end = s + n; s != end; ++s) {
        crc ^= (unsigned char)*s << 8;
        for (int k = 0; k < 8; ++k)
            if (crc & 0x8000) crc = crc << 1 ^ polynomial;
            else crc <<= 1;
    }
    return crc;
}

static unsigned adler(const char *s, unsigned long n) {
    unsigned a = 1, b = 0;
    for (unsigned long i = 0; i < n; ++i) {
        a = (a + (unsigned char)s[i]) % 65521u;
        b = (b + a) % 65521u;
    }
    return b << 16 | a;
}

static unsigned short fletcher(const char *s, unsigned long n) {
    unsigned char low = 0, high = 0;
    while (n-- > 0) {
        low = (low + (unsigned char)*s++) % 255;
        high = (high + low) % 255;
    }
    return high << 8 | low;
}

static bool luhn(const char *digits) {
    int sum = 0, n = 0;
    while (digits[n]) ++n;
    for (int i = n - 1, twice = 0; i >= 0; --i, twice = !twice) {
        int d = digits[i] - '0';
        if (twice && (d *= 2) > 9) d -= 9;
        sum += d;
    }
    return sum % 10 == 0;
}

int main() {
    static const char *const texts[] = { "", "a", "123456789", "The quick brown fox jumps over the lazy dog", "\377\376\0" };
    static const int lengths[] = { 0, 1, 9, 43, 3 };
    for (int i = 0; i < 5; ++i) {
        const char *s = texts[i];
        const int n = lengths[i];
        printf("%08x %08x %04x %04x %08x %04x\n", crc32(s, n), crc32_by_bits(s, n), crc16(s, n, 0x1021, 0xffff), crc16(s, n, 0x8005, 0), adler(s, n), fletcher(s, n));
    }
    unsigned parts = crc32("6789", 4, crc32("12345", 5));
    printf("in parts %08x\n", parts);
    printf("%d %d\n", luhn("79927398713"), luhn("79927398710"));
    return 0;
}
