// The shortest way through a maze, which is read, and how many rooms it has.
extern "C" int getchar();
extern "C" int putchar(int);
extern "C" int printf(const char *, ...);

const int most = 20;
static char maze[most][most];
static int distance_to[most][most];
static int rows, columns;
static int queue[most * most], head, tail;

static const int around[4][2] = { { -1, 0 }, { 0, 1 }, { 1, 0 }, { 0, -1 } };

static void read() {
    int column = 0;
    for (int c; rows < most && (c = getchar()) >= 0;) {
        if (c == '\n') {
            if (column) ++rows;
            column = 0;
            continue;
        }
        if (column < most) maze[rows][column++] = c;
        if (column > columns) columns = column;
    }
}

static bool find(char what, int &row, int &column) {
    for (row = 0; row < rows; ++row)
        for (column = 0; column < columns; ++column) if (maze[row][column] == what) return true;
    return false;
}

static bool is_open(int row, int column) {
    return row >= 0 && row < rows && column >= 0 && column < columns && maze[row][column] && maze[row][column] != '#';
}

static void search(int row, int column) {
    for (int i = 0; i < rows; i++) for (int j = 0; j < columns; j++) distance_to[i][j] = -1;
    distance_to[row][column] = 0;
    head = tail = 0;
    queue[tail++] = row * most + column;
    while (head < tail) {
        int place = queue[head++], r = place / most, c = place % most;
        for (const int (*step)[2] = around; step < around + 4; ++step) {
            int i = r + (*step)[0], j = c + (*step)[1];
            if (!is_open(i, j) || distance_to[i][j] >= 0) continue;
            distance_to[i][j] = distance_to[r][c] + 1;
            queue[tail++] = i * most + j;
        }
    }
}

static void mark(int row, int column) {
    while (int d = distance_to[row][column]) {
        if (maze[row][column] == ' ') maze[row][column] = '.';
        int k = 0;
        for (; k < 4; ++k) {
            int i = row + around[k][0], j = column + around[k][1];
            if (is_open(i, j) && distance_to[i][j] == d - 1) {
                row = i, column = j;
                break;
            }
        }
        if (k == 4) return;
    }
}

static int fill(int row, int column, char with) {
    if (!is_open(row, column) || maze[row][column] == with) return 0;
    maze[row][column] = with;
    int size = 1;
    for (int k = 0; k < 4; ++k) size += fill(row + around[k][0], column + around[k][1], with);
    return size;
}

static void show() {
    for (int i = 0; i < rows; ++i) {
        for (int j = 0; j < columns; ++j) putchar(maze[i][j]);
        putchar('\n');
    }
}

int main() {
    read();
    int row, column, end_row, end_column;
    if (!find('S', row, column) || !find('E', end_row, end_column)) {
        printf("no maze\n");
        return 1;
    }
    search(row, column);
    printf("%d rows, %d columns, distance %d\n", rows, columns, distance_to[end_row][end_column]);
    mark(end_row, end_column);
    show();
    int rooms = 0;
    for (int i = 0; i < rows; ++i)
        for (int j = 0; j < columns; ++j)
            if (is_open(i, j) && (maze[i][j] < '0' || maze[i][j] > '9'))
                if (int size = fill(i, j, (char)('0' + rooms % 10))) printf("room %d has %d places\n", rooms++, size);
    show();
    return 0;
}
