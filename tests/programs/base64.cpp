// The input in base 64, and back.
extern "C" int getchar();
extern "C" int putchar(int);
extern "C" int printf(const char *, ...);

static const char letters[] = "ABCDEFGHIJKLMNOPQRSTUVWXYZ" "abcdefghijklmnopqrstuvwxyz" "0123456789" "+/";
const int most = 2000;

static int encode(const unsigned char *from, int n, char *to) {
    char *p = to;
    for (; n >= 3; n -= 3, from += 3) {
        *p++ = letters[from[0] >> 2];
        *p++ = letters[(from[0] & 3) << 4 | from[1] >> 4];
        *p++ = letters[(from[1] & 15) << 2 | from[2] >> 6];
        *p++ = letters[from[2] & 63];
    }
    switch (n) {
    case 2:
        *p++ = letters[from[0] >> 2];
        *p++ = letters[(from[0] & 3) << 4 | from[1] >> 4];
        *p++ = letters[(from[1] & 15) << 2];
        *p++ = '=';
        break;
    case 1:
        *p++ = letters[*from >> 2];
        *p++ = letters[(*from & 3) << 4];
        *p++ = '=', *p++ = '=';
    }
    *p = '\0';
    return p - to;
}

static int value(char c) {
    static signed char values[128];
    static bool known;
    if (!known) {
        for (int i = 0; i < 128; i++) values[i] = -1;
        for (int i = 0; letters[i]; i++) values[(int)letters[i]] = i;
        known = true;
    }
    return c < 0 ? -1 : values[(int)c];
}

static int decode(const char *from, unsigned char *to) {
    unsigned char *p = to;
    unsigned bits = 0;
    int count = 0;
    for (; *from && *from != '='; ++from) {
        int v = value(*from);
        if (v < 0) continue;
        bits = bits << 6 | v;
        count += 6;
        if (count >= 8) {
            count -= 8;
            *p++ = bits >> count & 0xff;
        }
    }
    return p - to;
}

static void in_lines(const char *s, int width = 60) {
    for (int at = 0; *s; ++s) {
        putchar(*s);
        if (++at == width) putchar('\n'), at = 0;
        else if (!s[1]) putchar('\n');
    }
}

static void hexadecimal(const unsigned char *s, int n) {
    for (int i = 0; i < n; ++i) {
        putchar("0123456789abcdef"[s[i] >> 4]);
        putchar("0123456789abcdef"[s[i] & 15]);
        putchar(i == n - 1 ? '\n' : ' ');
    }
}

int main() {
    static unsigned char input[most], back[most];
    static char text[most * 4 / 3 + 8];
    int n = 0;
    for (int c; n < most && (c = getchar()) >= 0;) input[n++] = c;
    int length = encode(input, n, text);
    printf("%d bytes are %d letters\n", n, length);
    in_lines(text);
    bool same = decode(text, back) == n;
    for (int i = 0; same && i < n; ++i) same = input[i] == back[i];
    printf("%s\n", same ? "the same" : "not the same");
    for (int i = 0; i <= 4; ++i) {
        const unsigned char bytes[] = { 0xff, 0, 0x80, 'x' };
        encode(bytes, i, text);
        printf("%d '%s' %d\n", i, text, decode(text, back));
    }
    hexadecimal(back, decode("SGVsbG8s IHdvcmxk", back));
    return 0;
}
