// The words of the input in lines of one width.
extern "C" int getchar();
extern "C" int putchar(int);

const int width = 40, most_words = width / 2 + 1, longest = 30;
static char words[most_words][longest + 1];
static int lengths[most_words];
static int count, letters;
static int line;

static void spaces(int n) {
    while (n-- > 0) putchar(' ');
}

static void put(const char *s) {
    while (*s) putchar(*s++);
}

static void left() {
    for (int i = 0; i < count; i++) {
        if (i) putchar(' ');
        put(words[i]);
    }
}

static void full() {
    if (count == 1) {
        left();
        return;
    }
    int gaps = count - 1, blanks = width - letters;
    for (int i = 0; i < count; i++) {
        put(words[i]);
        if (i == count - 1) break;
        int here = blanks / gaps;
        if (blanks % gaps && line % 2) ++here;          // the wide gaps stand on the left and on the right in turn
        spaces(here);
        blanks -= here;
        --gaps;
    }
}

static void middle() {
    spaces((width - letters - (count - 1)) / 2);
    left();
}

static void right() {
    spaces(width - letters - (count - 1));
    left();
}

static void flush(void way() = left) {
    if (!count) return;
    way();
    putchar('\n');
    ++line;
    count = letters = 0;
}

static void add(const char *word, int length, void way()) {
    if (count && letters + count + length > width) flush(way);
    for (int i = 0; i <= length; ++i) words[count][i] = word[i];
    lengths[count++] = length;
    letters += length;
}

int main() {
    char word[longest + 1];
    int length = 0, newlines = 0;
    void (*way)() = full;
    for (;;) {
        int c = getchar();
        if (c > ' ' && length < longest) {
            if (newlines > 1) {
                flush(way == full ? left : way);
                putchar('\n');
            }
            newlines = 0;
            word[length++] = c;
            continue;
        }
        if (length) {
            word[length] = '\0';
            if (length == 2 && word[0] == '.') {
                flush(way == full ? left : way);
                switch (word[1]) {
                case 'l': way = left; break;
                case 'r': way = right; break;
                case 'm': way = middle; break;
                default: way = full;
                }
            } else add(word, length, way);
            length = 0;
        }
        if (c == '\n') ++newlines;
        if (c < 0) break;
        if (c > ' ') word[length++] = c;
    }
    flush(way == full ? left : way);
    return 0;
}
