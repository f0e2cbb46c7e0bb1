// Queens that do not attack one another, in two ways.
extern "C" int putchar(int);
extern "C" int printf(const char *, ...);

const int most = 10;
static int column_of[most];
static int solutions;

static bool is_safe(int row, int column) {
    for (int other = 0; other < row; other++) {
        int distance = column_of[other] - column;
        if (distance == 0 || distance == row - other || distance == other - row) return false;
    }
    return true;
}

static void board(int n) {
    for (int row = 0; row < n; row++) {
        for (int column = 0; column < n; column++) {
            putchar(column_of[row] == column ? 'Q' : '.');
            putchar(column < n - 1 ? ' ' : '\n');
        }
    }
}

static void place(int row, int n) {
    if (row == n) {
        if (solutions++ == 0 && n == 8) board(n);
        return;
    }
    for (int column = 0; column < n; column++)
        if (is_safe(row, column)) {
            column_of[row] = column;
            place(row + 1, n);
        }
}

static int counted(unsigned all, unsigned columns = 0, unsigned left = 0, unsigned right = 0) {
    if (columns == all) return 1;
    int count = 0;
    for (unsigned free = all & ~(columns | left | right); free; free &= free - 1) {
        unsigned bit = free & -free;
        count += counted(all, columns | bit, (left | bit) << 1, (right | bit) >> 1);
    }
    return count;
}

// a tour of the knight, by Warnsdorf's rule
static int visited[6][6];

static int ways(int x, int y, int to[][2]) {
    static const int steps[8][2] = { { 1, 2 }, { 2, 1 }, { 2, -1 }, { 1, -2 }, { -1, -2 }, { -2, -1 }, { -2, 1 }, { -1, 2 } };
    int n = 0;
    for (int i = 0; i < 8; ++i) {
        int u = x + steps[i][0], v = y + steps[i][1];
        if (u < 0 || u >= 6 || v < 0 || v >= 6 || visited[u][v]) continue;
        if (to) to[n][0] = u, to[n][1] = v;
        ++n;
    }
    return n;
}

static bool tour(int x, int y, int step) {
    visited[x][y] = step;
    if (step == 36) return true;
    int to[8][2];
    const int n = ways(x, y, to);
    for (int tried = 0; tried < n; ++tried) {
        int best = -1, least = 9;
        for (int i = 0; i < n; ++i)
            if (to[i][0] >= 0)
                if (int k = ways(to[i][0], to[i][1], 0) + 1)
                    if (k < least) least = k, best = i;
        if (best < 0) break;
        int u = to[best][0], v = to[best][1];
        to[best][0] = -1;
        if (tour(u, v, step + 1)) return true;
    }
    visited[x][y] = 0;
    return false;
}

int main() {
    for (int n = 1; n <= 8; n++) {
        solutions = 0;
        place(0, n);
        printf("%d: %d %d\n", n, solutions, counted((1u << n) - 1));
    }
    if (tour(0, 0, 1))
        for (int i = 0; i < 6; ++i)
            for (int j = 0; j < 6; ++j) printf("%3d%s", visited[i][j], j == 5 ? "\n" : "");
    return 0;
}
