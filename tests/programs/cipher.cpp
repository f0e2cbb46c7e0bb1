// Ciphers and run lengths.
extern "C" int putchar(int);
extern "C" int printf(const char *, ...);

typedef void Change(char *, const char *);

static char shifted(char c, int by) {
    if (c >= 'a' && c <= 'z') return (c - 'a' + by % 26 + 26) % 26 + 'a';
    if (c >= 'A' && c <= 'Z') return (c - 'A' + by % 26 + 26) % 26 + 'A';
    return c;
}

static void caesar(char *s, int by) {
    for (; *s; ++s) *s = shifted(*s, by);
}

static void vigenere(char *s, const char *key, bool back = false) {
    for (const char *k = key; *s; ++s) {
        char c = shifted(*s, back ? -(*k - 'a') : *k - 'a');
        if (c != *s || *s >= 'a' && *s <= 'z')
            if (!*++k) k = key;
        *s = c;
    }
}

static void reverse_words(char *s, const char *) {
    while (*s) {
        while (*s == ' ') ++s;
        char *end = s;
        while (*end && *end != ' ') ++end;
        for (char *a = s, *b = end; a < --b; ++a) {
            char c = *a;
            *a = *b, *b = c;
        }
        s = end;
    }
}

static void rail(char *s, const char *) {
    char top[80], low[80];
    int n[2] = { 0, 0 };
    char *rails[] = { top, low };
    for (int i = 0; s[i]; ++i) rails[i % 2][n[i % 2]++] = s[i];
    char *p = s;
    for (int r = 0; r < 2; ++r) for (int i = 0; i < n[r]; ++i) *p++ = rails[r][i];
}

static void exclusive(char *s, const char *key) {
    for (const char *k = key; *s; ++s, *++k ? (void)0 : (void)(k = key)) *s ^= *k & 0x0f;
}

static char *pack(const char *from, char *to) {
    char *p = to;
    while (char c = *from) {
        int n = 1;
        while (from[n] == c) ++n;
        from += n;
        if (n > 1) {
            char digits[8];
            int k = 0;
            do digits[k++] = '0' + n % 10; while (n /= 10);
            while (k) *p++ = digits[--k];
        }
        *p++ = c;
    }
    *p = 0;
    return to;
}

static char *unpack(const char *from, char *to) {
    char *p = to;
    for (; *from; ++from) {
        int n = 0;
        for (; *from >= '0' && *from <= '9'; ++from) n = n * 10 + (*from - '0');
        if (!n) n = 1;
        while (n--) *p++ = *from;
    }
    *p = '\0';
    return to;
}

static void morse(const char *s) {
    // for each letter a one, and then a bit for each sign
    static const unsigned char codes[26] = { 5, 24, 26, 12, 2, 18, 14, 16, 4, 23, 13, 20, 7, 6, 15, 22, 29, 10, 8, 3, 9, 17, 11, 25, 27, 28 };
    for (; *s; ++s) {
        if (*s < 'a' || *s > 'z') {
            if (*s == ' ') putchar('/'), putchar(' ');
            continue;
        }
        int code = codes[*s - 'a'], bit = 16;
        while (!(code & bit)) bit >>= 1;
        while (bit >>= 1) putchar(code & bit ? '-' : '.');
        putchar(' ');
    }
    putchar('\n');
}

static void apply(const char *name, Change *change, const char *text, const char *key) {
    char room[80], *p = room;
    while ((*p++ = *text++)) ;
    change(room, key);
    printf("%s: %s", name, room);
    change(room, key);
    printf(" -> %s\n", room);
}

int main() {
    char text[] = "Hello, World! xyz";
    caesar(text, 3);
    printf("%s\n", text);
    caesar(text, -3);
    printf("%s\n", text);
    caesar(text, 13), caesar(text, 13);
    printf("%s\n", text);
    char secret[] = "attackatdawn";
    vigenere(secret, "lemon");
    printf("%s\n", secret);
    vigenere(secret, "lemon", true);
    printf("%s\n", secret);
    apply("words", reverse_words, "the quick brown fox", 0);
    apply("rails", rail, "defend the east wall", 0);
    apply("exclusive", exclusive, "exclusive or", "abc");
    char packed[80], unpacked[80];
    const char *const samples[] = { "aaabccddddddddddddde", "abc", "", "zzzzzzzzzzzzzzzzzzzzzzzzzzzzzz" };
    for (int i = 0; i < 4; ++i) {
        pack(samples[i], packed);
        printf("'%s' '%s'\n", packed, unpack(packed, unpacked));
    }
    morse("sos the quick brown fox jumps over the lazy dog");
    return 0;
}
