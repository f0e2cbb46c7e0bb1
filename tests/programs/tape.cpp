// A language of eight signs on a tape, and a machine with a table of states.
extern "C" int putchar(int);
extern "C" int getchar();
extern "C" int printf(const char *, ...);

const int cells = 300;
static unsigned char tape[cells];

static int match(const char *program, int at) {
    int step = program[at] == '[' ? 1 : -1;
    for (int depth = 0; ; at += step)
        switch (program[at]) {
        case '[': depth += step; if (!depth) return at; break;
        case ']': depth -= step; if (!depth) return at; break;
        case '\0': return at;
        }
}

static long run(const char *program) {
    for (int i = 0; i < cells; i++) tape[i] = 0;
    unsigned char *p = tape;
    long steps = 0;
    for (int at = 0; char c = program[at]; ++at, ++steps) {
        switch (c) {
        case '>': if (p < tape + cells - 1) ++p; break;
        case '<': if (p > tape) --p; break;
        case '+': ++*p; break;
        case '-': --*p; break;
        case '.': putchar(*p); break;
        case ',': {
            int read = getchar();
            *p = read < 0 ? 0 : read;
            break;
        }
        case '[': if (!*p) at = match(program, at); break;
        case ']': if (*p) at = match(program, at); break;
        default: --steps;
        }
        if (steps > 1000000) return -1;
    }
    return steps;
}

// busy beavers: for each state and sign what is written, where it goes, and the state behind
static int beaver(const int (*table)[2][3], int states, int &ones) {
    static int band[201];
    for (int i = 0; i < 201; ++i) band[i] = 0;
    int at = 100, state = 0, steps = 0;
    while (state < states && steps < 1000) {
        const int *row = table[state][band[at]];
        band[at] = row[0];
        at += row[1];
        state = row[2];
        ++steps;
    }
    ones = 0;
    for (const int *p = band; p < band + 201; ) ones += *p++;
    return steps;
}

int main() {
    long steps = run("++++++++[>++++[>++>+++>+++>+<<<<-]>+>+>->>+[<]<-]>>.>---.+++++++..+++.>>.<-.<.+++.------.--------.>>+.>++.");
    printf("%ld steps\n", steps);
    steps = run(",[.,]");
    printf("%ld steps\n", steps);
    steps = run("+++++[>+++++++++++++<-]>.+.+.+.>++++++++++.  no sign stands here ");
    printf("%ld steps\n", steps);
    printf("%ld\n", run("+[]"));
    static const int two[2][2][3] = { { { 1, 1, 1 }, { 1, -1, 1 } }, { { 1, -1, 0 }, { 1, 1, 2 } } };
    static const int three[3][2][3] = { { { 1, 1, 1 }, { 1, -1, 2 } }, { { 1, -1, 0 }, { 1, 1, 1 } }, { { 1, -1, 1 }, { 1, 1, 3 } } };
    static const int four[4][2][3] = { { { 1, 1, 1 }, { 1, -1, 1 } }, { { 1, -1, 0 }, { 0, -1, 2 } }, { { 1, 1, 4 }, { 1, -1, 3 } }, { { 1, 1, 3 }, { 0, 1, 0 } } };
    int ones, n = beaver(two, 2, ones);
    printf("%d %d\n", n, ones);
    n = beaver(three, 3, ones);
    printf("%d %d\n", n, ones);
    n = beaver(four, 4, ones);
    printf("%d %d\n", n, ones);
    return 0;
}
