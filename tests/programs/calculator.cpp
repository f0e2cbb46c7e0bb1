// A calculator: expressions, one a line, by recursive descent.
extern "C" int getchar();
extern "C" int printf(const char *, ...);

static int ahead;
static const char *wrong;
static long variables[26];

static long expression();

static void skip() {
    do ahead = getchar(); while (ahead == ' ' || ahead == '\t');
}

static void fail(const char *why) {
    if (!wrong) wrong = why;
}

static bool taken(int c) {
    if (ahead != c) return false;
    skip();
    return true;
}

static long power(long base, long exponent) {
    long result = 1;
    for (; exponent > 0; exponent /= 2, base *= base) if (exponent % 2) result *= base;
    return result;
}

static long primary() {
    switch (ahead) {
    case '0': case '1': case '2': case '3': case '4': case '5': case '6': case '7': case '8': case '9': {
        long value = 0;
        do {
            value = value * 10 + (ahead - '0');
            ahead = getchar();
        } while (ahead >= '0' && ahead <= '9');
        if (ahead == ' ') skip();
        return value;
    }
    case '(': {
        skip();
        long value = expression();
        if (!taken(')')) fail("a bracket is open");
        return value;
    }
    case '-':
        skip();
        return -primary();
    case '!':
        skip();
        return !primary();
    default:
        if (ahead >= 'a' && ahead <= 'z') {
            long &variable = variables[ahead - 'a'];
            skip();
            if (taken('=')) variable = expression();
            return variable;
        }
        fail("an operand is missing");
    }
    return 0;
}

static long factor() {
    long base = primary();
    return taken('^') ? power(base, factor()) : base;
}

static long term() {
    long left = factor();
    for (;;) {
        if (taken('*')) left *= factor();
        else if (ahead == '/' || ahead == '%') {
            bool rest = ahead == '%';
            skip();
            long right = factor();
            if (right == 0) {
                fail("division by zero");
                return 0;
            }
            if (rest) left %= right;
            else left /= right;
        } else return left;
    }
}

static long expression() {
    long left = term();
    while (true)
        if (taken('+')) left += term();
        else if (taken('-')) left -= term();
        else return left;
}

int main() {
    for (int line = 1; ; line++) {
        skip();
        if (ahead < 0) break;
        if (ahead == '\n') continue;
        wrong = 0;
        long value = expression();
        if (!wrong && ahead != '\n') fail("something stands behind the end");
        if (wrong) printf("%d: %s\n", line, wrong);
        else printf("%d: %ld\n", line, value);
        while (ahead >= 0 && ahead != '\n') ahead = getchar();
    }
    return 0;
}
