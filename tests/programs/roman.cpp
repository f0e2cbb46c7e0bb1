// Roman numerals, and numbers in words.
extern "C" int printf(const char *, ...);

static const int values[] = { 1000, 900, 500, 400, 100, 90, 50, 40, 10, 9, 5, 4, 1 };
static const char *const numerals[] = { "M", "CM", "D", "CD", "C", "XC", "L", "XL", "X", "IX", "V", "IV", "I" };

char *to_roman(int n, char *to) {
    char *p = to;
    for (int i = 0; n > 0; ++i)
        for (; n >= values[i]; n -= values[i])
            for (const char *s = numerals[i]; *s; ++s) *p++ = *s;
    *p = 0;
    return to;
}

int digit(char c) {
    switch (c) {
    case 'I': return 1;
    case 'V': return 5;
    case 'X': return 10;
    case 'L': return 50;
    case 'C': return 100;
    case 'D': return 500;
    case 'M': return 1000;
    default: return 0;
    }
}

int from_roman(const char *s) {
    int total = 0, last = 0;
    const char *p = s;
    while (*p) ++p;
    while (p > s) {
        int d = digit(*--p);
        if (!d) return -1;
        if (d < last) total -= d;
        else total += last = d;
    }
    return total;
}

void say(long n, bool first = true) {
    static const char *const small[] = {
        "zero", "one", "two", "three", "four", "five", "six", "seven", "eight", "nine", "ten",
        "eleven", "twelve", "thirteen", "fourteen", "fifteen", "sixteen", "seventeen", "eighteen", "nineteen"
    };
    static const char *const tens[] = { 0, 0, "twenty", "thirty", "forty", "fifty", "sixty", "seventy", "eighty", "ninety" };
    static const char *const large[] = { "billion", "million", "thousand", "hundred" };
    static const long sizes[] = { 1000000000, 1000000, 1000, 100 };
    if (n < 0) {
        printf("minus ");
        n = -n;
    }
    for (unsigned i = 0; i < sizeof sizes / sizeof *sizes; ++i)
        if (n >= sizes[i]) {
            say(n / sizes[i], first);
            printf(" %s", large[i]);
            n %= sizes[i];
            if (!n) return;
            first = false;
        }
    if (!first) printf(" ");
    if (n < 20) printf("%s", small[n]);
    else {
        printf("%s", tens[n / 10]);
        if (n % 10) printf("-%s", small[n % 10]);
    }
}

int main() {
    char text[20];
    const int years[] = { 1, 4, 9, 14, 40, 90, 400, 1666, 1944, 1998, 2024, 3999 };
    for (unsigned i = 0; i < sizeof years / sizeof(int); ++i)
        printf("%d %s%c", years[i], to_roman(years[i], text), i % 4 == 3 ? '\n' : ' ');
    int wrong = 0;
    for (int n = 1; n < 4000; ++n) if (from_roman(to_roman(n, text)) != n) ++wrong;
    printf("%d wrong, %d, %d\n", wrong, from_roman("MCMXCVIII"), from_roman("MCZ"));
    const long numbers[] = { 0, 7, 13, 20, 42, 100, 115, 999, 1000, 1001, 12345, 1000000, -2000019, 123456789012L };
    for (const long *p = numbers; p < numbers + sizeof numbers / sizeof numbers[0]; ++p) {
        printf("%ld: ", *p);
        say(*p);
        printf("\n");
    }
    return 0;
}
