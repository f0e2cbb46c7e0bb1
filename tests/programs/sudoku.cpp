// A sudoku is read and solved by trying, with sets of digits as bits.
extern "C" int getchar();
extern "C" int putchar(int);
extern "C" int printf(const char *, ...);

static int cells[81];
static unsigned in_row[9], in_column[9], in_box[9];
static long tried;

static int box(int row, int column) { return row / 3 * 3 + column / 3; }

static bool put(int at, int digit) {
    int row = at / 9, column = at % 9;
    unsigned bit = 1u << digit;
    unsigned *const sets[3] = { &in_row[row], &in_column[column], &in_box[box(row, column)] };
    for (int i = 0; i < 3; ++i) if (*sets[i] & bit) return false;
    for (int i = 0; i < 3; ++i) *sets[i] |= bit;
    cells[at] = digit;
    return true;
}

static void take(int at) {
    unsigned bits = ~(1u << cells[at]);
    in_row[at / 9] &= bits;
    in_column[at % 9] &= bits;
    in_box[box(at / 9, at % 9)] &= bits;
    cells[at] = 0;
}

static int bits(unsigned x) {
    int n = 0;
    for (; x; x &= x - 1) ++n;
    return n;
}

static bool solve() {
    int best = -1, fewest = 10;
    unsigned choices = 0;
    for (int at = 0; at < 81 && fewest > 1; ++at) {
        if (cells[at]) continue;
        unsigned free = 0x3fe & ~(in_row[at / 9] | in_column[at % 9] | in_box[box(at / 9, at % 9)]);
        int n = bits(free);
        if (n < fewest) {
            fewest = n;
            best = at;
            choices = free;
        }
    }
    if (best < 0) return true;
    for (int digit = 1; digit <= 9; ++digit) {
        if (!(choices >> digit & 1)) continue;
        ++tried;
        put(best, digit);
        if (solve()) return true;
        take(best);
    }
    return false;
}

static void show() {
    for (int at = 0; at < 81; ++at) {
        putchar(cells[at] ? '0' + cells[at] : '.');
        if (at % 9 == 8) putchar('\n');
        else if (at % 3 == 2) putchar('|');
        if (at == 26 || at == 53) printf("---+---+---\n");
    }
}

static bool read() {
    for (int i = 0; i < 81; ++i) cells[i] = 0;
    for (int i = 0; i < 9; ++i) in_row[i] = in_column[i] = in_box[i] = 0;
    tried = 0;
    for (int at = 0; at < 81;)
        switch (int c = getchar()) {
        case -1:
            return false;
        case '.':
            ++at;
            break;
        default:
            if (c > '0' && c <= '9')
                if (!put(at++, c - '0')) {
                    printf("two digits alike at %d\n", at);
                    while ((c = getchar()) >= 0 && c != ';')
                        ;
                    return read();
                }
        }
    return true;
}

int main() {
    for (int n = 1; read(); ++n) {
        int given = 0;
        for (const int *p = cells; p != cells + 81; ++p) given += *p != 0;
        bool solved = solve();
        printf("%d: %d given, %s\n", n, given, solved ? tried < 2000 ? "solved" : "solved with luck" : "no solution");
        if (solved) show();
    }
    return 0;
}
