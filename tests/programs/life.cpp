// Life on a torus.
extern "C" int putchar(int);
extern "C" int printf(const char *, ...);

const int rows = 8, columns = 12;
static char boards[2][rows][columns];
static int now;

static int neighbours(int row, int column) {
    int count = 0;
    for (int i = -1; i <= 1; i++)
        for (int j = -1; j <= 1; j++)
            if (i || j) count += boards[now][(row + i + rows) % rows][(column + j + columns) % columns];
    return count;
}

static void step() {
    char (*next)[columns] = boards[!now];
    for (int row = 0; row < rows; row++)
        for (int column = 0; column < columns; column++)
            switch (neighbours(row, column)) {
            case 2:
                next[row][column] = boards[now][row][column];
                break;
            case 3:
                next[row][column] = 1;
                break;
            default:
                next[row][column] = 0;
            }
    now = !now;
}

static int alive() {
    int count = 0;
    for (const char *p = &boards[now][0][0], *end = p + rows * columns; p != end; ++p) count += *p;
    return count;
}

static void show(int generation) {
    printf("generation %d, %d alive\n", generation, alive());
    for (int row = 0; row < rows; row++) {
        for (int column = 0; column < columns; column++) putchar(boards[now][row][column] ? '#' : '.');
        putchar('\n');
    }
}

static void put(int row, int column, const char *shape) {
    for (int at = column; *shape; ++shape)
        if (*shape == '/') {
            row++;
            at = column;
        } else boards[now][row % rows][at++ % columns] = *shape == '#';
}

static void clear() {
    for (int i = 0; i < rows; ++i) for (int j = 0; j < columns; ++j) boards[0][i][j] = boards[1][i][j] = 0;
}

// the cells of a line, by the number of a rule
static void automaton(unsigned char rule, int lines) {
    unsigned cells = 1u << 15;
    for (int line = 0; line < lines; ++line) {
        for (int i = 30; i >= 0; --i) putchar(cells >> i & 1 ? '*' : ' ');
        putchar('|');
        putchar('\n');
        unsigned next = 0;
        for (int i = 0; i < 31; ++i) {
            int around = (i < 30 ? cells >> (i + 1) & 1 : 0) << 2 | (cells >> i & 1) << 1 | (i ? cells >> (i - 1) & 1 : 0);
            next |= (unsigned)(rule >> around & 1) << i;
        }
        cells = next;
    }
}

int main() {
    put(0, 1, ".#./..#/###");
    put(5, 8, "###");
    show(0);
    for (int generation = 1; generation <= 8; generation++) {
        step();
        if (generation % 4 == 0) show(generation);
        else printf("generation %d, %d alive\n", generation, alive());
    }
    clear();
    put(2, 2, "##/##");
    put(3, 7, ".##/##./.#.");
    int generation = 0;
    for (int last = -1, same = 0; same < 3 && generation < 60; ++generation) {
        int count = alive();
        same = count == last ? same + 1 : 0;
        last = count;
        step();
    }
    show(generation);
    automaton(90, 8);
    automaton(30, 6);
    return 0;
}
