// A machine with a stack, whose operations stand in a table, and a table of functions of numbers.
extern "C" int putchar(int);
extern "C" int printf(const char *, ...);

const int depth = 32;
static long stack[depth], *top = stack;
static const long *at;
static bool running;
static int steps;

static void push(long x) {
    if (top == stack + depth) running = false;
    else *top++ = x;
}

static long pop() { return top > stack ? *--top : (running = false, 0L); }

static void literal() { push(*at++); }
static void add() { long b = pop(), a = pop(); push(a + b); }
static void subtract() { long b = pop(), a = pop(); push(a - b); }
static void multiply() { long b = pop(), a = pop(); push(a * b); }
static void less() { long b = pop(), a = pop(); push(a < b); }
static void duplicate() { long a = pop(); push(a), push(a); }
static void over() { long b = pop(), a = pop(); push(a); push(b); push(a); }
static void exchange() { long b = pop(), a = pop(); push(b); push(a); }
static void drop() { pop(); }
static void print() { printf("%ld ", pop()); }
static void letter() { putchar((int)pop()); }
static void jump() { at += *at; }
static void jump_if_zero() { if (pop()) ++at; else at += *at; }
static void stop() { running = false; }

enum Code { Literal, Add, Subtract, Multiply, Less, Duplicate, Over, Exchange, Drop, Print, Letter, Jump, JumpIfZero, Stop, Codes };
static void (*const operations[Codes])() = {
    literal, add, subtract, multiply, less, duplicate, over, exchange, drop, print, letter, jump, jump_if_zero, stop
};

static int run(const long *program, int most = 1000) {
    at = program;
    top = stack;
    steps = 0;
    for (running = true; running && steps < most; ++steps) {
        long code = *at++;
        if (code < 0 || code >= (long)(sizeof operations / sizeof *operations)) return -1;
        operations[code]();
    }
    return (int)(top - stack);
}

static long twice(long x) { return 2 * x; }
static long square(long x) { return x * x; }
static long negated(long x) { return -x; }
typedef long Function(long);

static Function *choose(char c) {
    switch (c) {
    case '2': return twice;
    case 's': return square;
    case '-': return &negated;
    default: return 0;
    }
}

static long applied(const char *names, long x) {
    for (; *names; ++names)
        if (Function *f = choose(*names)) x = f(x);
        else x = (*choose('-'))(x) + 1;
    return x;
}

int main() {
    // 10 9 .. 1
    static const long down[] = { Literal, 10, Duplicate, Print, Literal, 1, Subtract, Duplicate, JumpIfZero, 3, Jump, -9, Literal, 10, Letter, Stop };
    // 1 1 2 3 5 .. below 100
    static const long fibonacci[] = { Literal, 0, Literal, 1, Duplicate, Literal, 100, Less, JumpIfZero, 8, Duplicate, Print, Exchange, Over, Add, Jump, -12, Literal, 10, Letter, Stop };
    static const long factorial[] = { Literal, 1, Literal, 12, Duplicate, JumpIfZero, 10, Exchange, Over, Multiply, Exchange, Literal, 1, Subtract, Jump, -11, Drop, Print, Stop };
    static const long endless[] = { Jump, -1 }, bad[] = { Literal, 1, 99 };
    int left = run(down);
    printf("%d left, %d steps\n", left, steps);
    left = run(fibonacci);
    printf("%d left, %d steps\n", left, steps);
    left = run(factorial);
    printf("%d left, %d steps\n", left, steps);
    left = run(endless);
    printf("%d left, %d steps\n", left, steps);
    printf("%d\n", run(bad));
    printf("%ld %ld %ld %ld\n", applied("", 5), applied("2s", 5), applied("s2-", 5), applied("x2", 5));
    return 0;
}
