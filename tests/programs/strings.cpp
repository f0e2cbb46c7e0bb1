// Text by hand: lengths, copies, comparisons, words.
extern "C" int putchar(int);
extern "C" int printf(const char *, ...);

unsigned long length(const char *s) {
    const char *p = s;
    while (*p) ++p;
    return p - s;
}

char *copy(char *to, const char *from) {
    char *p = to;
    while (*p++ = *from++)
        ;
    return to;
}

char *append(char *to, const char *from) {
    copy(to + length(to), from);
    return to;
}

int compare(const char *a, const char *b) {
    for (; *a && *a == *b; ++a, ++b)
        ;
    return (unsigned char)*a - (unsigned char)*b;
}

bool is_letter(char c) { return c >= 'a' && c <= 'z' || c >= 'A' && c <= 'Z'; }
char lower(char c) { return c >= 'A' && c <= 'Z' ? c - 'A' + 'a' : c; }
char upper(char c) { return c >= 'a' && c <= 'z' ? c - 'a' + 'A' : c; }

void reverse(char *s) {
    if (!*s) return;
    for (char *end = s + length(s) - 1; s < end; ++s, --end) {
        char c = *s;
        *s = *end;
        *end = c;
    }
}

bool is_palindrome(const char *s) {
    const char *end = s + length(s);
    while (s < end) {
        if (!is_letter(*s)) { ++s; continue; }
        if (!is_letter(end[-1])) { --end; continue; }
        if (lower(*s++) != lower(*--end)) return false;
    }
    return true;
}

void map(char *s, char change(char)) {
    for (; *s; ++s) *s = change(*s);
}

int words(const char *s) {
    int n = 0;
    bool inside = false;
    for (; char c = *s; ++s) {
        if (c == ' ' || c == '\n' || c == '\t') inside = false;
        else if (!inside) {
            inside = true;
            ++n;
        }
    }
    return n;
}

bool is_anagram(const char *a, const char *b) {
    int counts[256];
    for (int i = 0; i < 256; ++i) counts[i] = 0;
    while (*a) ++counts[(unsigned char)*a++];
    while (*b) --counts[(unsigned char)*b++];
    for (int i = 0; i < 256; ++i) if (counts[i]) return false;
    return true;
}

int number(const char *s, int base = 10) {
    int n = 0, sign = 1;
    if (*s == '-') sign = -1, ++s;
    for (;; ++s) {
        int digit;
        if (*s >= '0' && *s <= '9') digit = *s - '0';
        else if (is_letter(*s)) digit = lower(*s) - 'a' + 10;
        else break;
        if (digit >= base) break;
        n = n * base + digit;
    }
    return sign * n;
}

int main() {
    char a[64], b[] = "The quick brown fox";
    copy(a, b);
    append(append(a, " jumps over "), "the lazy dog");
    printf("%s: %lu bytes, %d words\n", a, length(a), words(a));
    reverse(a);
    printf("%s\n", a);
    map(b, upper);
    printf("%s, ", b);
    map(b, lower);
    printf("%s\n", b);
    printf("%d %d %d %d\n", compare("abc", "abc"), compare("abc", "abd") < 0, compare("b", "abc") > 0, compare("ab", "abc") < 0);
    printf("%d %d %d\n", is_palindrome("A man, a plan, a canal: Panama"), is_palindrome("palindrome"), is_palindrome(""));
    printf("%d %d\n", is_anagram("listen", "silent"), is_anagram("abc", "abb"));
    printf("%d %d %d %d\n", number("-123"), number("ff", 16), number("1012", 2), number("z", 36));
    for (const char *s = "\tx\n"; *s; s++) putchar(*s == '\t' ? '>' : *s == '\n' ? '<' : *s);
    putchar('\n');
    return 0;
}
