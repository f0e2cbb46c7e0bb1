// Comments and blank lines are taken out of the input by a machine of states, which counts what it sees.
extern "C" int getchar();
extern "C" int putchar(int);
extern "C" int printf(const char *, ...);

enum State { code, slash, line_comment, comment, star, quoted, escaped, letter, letter_escaped };

static int seen[9];
static bool blank = true, pending;

static void put(int c) {
    if (c == '\n') {
        if (!blank) putchar(c);
        blank = true;
        return;
    }
    if (c == ' ' || c == '\t') {
        if (!blank) pending = true;
        return;
    }
    if (pending) putchar(' ');
    pending = blank = false;
    putchar(c);
}

static void new_line() {
    pending = false;
    put('\n');
}

// the state behind a character
static State next(State state, int c) {
    switch (state) {
    case code:
        switch (c) {
        case '/': return slash;
        case '"': put(c); return quoted;
        case '\'': put(c); return letter;
        case '\n': new_line(); break;
        default: put(c);
        }
        return code;
    case slash:
        switch (c) {
        case '/': return line_comment;
        case '*': return comment;
        }
        put('/');
        return next(code, c);
    case line_comment:
        if (c != '\n') return line_comment;
        new_line();
        return code;
    case comment:
        if (c == '\n') new_line();
        return c == '*' ? star : comment;
    case star:
        if (c == '/') {
            put(' ');
            return code;
        } else if (c == '*') return star;
        return next(comment, c);
    case quoted: case letter:
        if (c == ' ') putchar(c);
        else put(c);
        if (c == '\\') switch (state) { case quoted: return escaped; default: return letter_escaped; }
        switch (state) {
        case quoted: return c == '"' ? code : quoted;
        default: return c == '\'' ? code : letter;
        }
    case escaped: put(c); return quoted;
    case letter_escaped: put(c); return letter;
    }
    return code;
}

static void run(State state, int left) {
    int c = getchar();
    if (c < 0 || left == 0) {
        switch (state) {
        case code: case line_comment: break;
        case slash: put('/'); break;
        default: printf("(not ended)");
        }
        if (!blank) putchar('\n');
        return;
    }
    ++seen[int(state)];
    run(next(state, c), left - 1);
}

int main() {
    run(code, 5000);
    for (int i = 0; i < 9; ++i) printf("%d%c", seen[i], i < 8 ? ' ' : '\n');
    return 0;
}
