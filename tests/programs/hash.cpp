// Words of the input are counted in a table with open addresses.
extern "C" int getchar();
extern "C" int printf(const char *, ...);

const unsigned slots = 64;          // a power of two
const int room = 1024;

static char text[room], *free_text = text;
static const char *keys[slots];
static int counts[slots];
static int used, probes;

static unsigned fnv(const char *s) {
    unsigned h = 2166136261u;
    while (*s) h = (h ^ (unsigned char)*s++) * 16777619u;
    return h;
}

static unsigned djb(const char *s) {
    unsigned h = 5381;
    for (; *s; ++s) h = h * 33 + (unsigned char)*s;
    return h;
}

static bool same(const char *a, const char *b) {
    while (*a && *a == *b) ++a, ++b;
    return *a == *b;
}

static int &counted(const char *word, unsigned hash(const char *) = fnv) {
    unsigned at = hash(word) & (slots - 1);
    for (++probes; const char *key = keys[at]; ++probes) {
        if (same(key, word)) return counts[at];
        at = (at + 1) & (slots - 1);
    }
    ++used;
    keys[at] = free_text;
    while ((*free_text++ = *word++) != '\0')
        ;
    counts[at] = 0;
    return counts[at];
}

static int letter(int c) {
    if (c >= 'A' && c <= 'Z') return c - 'A' + 'a';
    return c >= 'a' && c <= 'z' ? c : 0;
}

static bool word(char *to, int most) {
    int c;
    do if ((c = getchar()) < 0) return false; while (!letter(c));
    for (; int l = letter(c); c = getchar())
        if (most > 1) *to++ = l, --most;
    *to = 0;
    return true;
}

static int before(int a, int b) {
    if (counts[a] != counts[b]) return counts[a] > counts[b];
    const char *s = keys[a], *t = keys[b];
    while (*s == *t) s++, t++;
    return *s < *t;
}

int main() {
    char w[16];
    int words = 0;
    while (word(w, sizeof w)) {
        ++counted(w);
        ++words;
    }
    printf("%d words, %d different\n", words, used);
    int order[slots], n = 0;
    for (unsigned i = 0; i < slots; ++i) {
        if (!keys[i]) continue;
        int j = n++;
        for (; j > 0 && before(i, order[j - 1]); --j) order[j] = order[j - 1];
        order[j] = i;
    }
    for (int i = 0; i < n && counts[order[i]] > 1; ++i) printf("%4d %s\n", counts[order[i]], keys[order[i]]);
    printf("at most two probes a word: %s\n", probes <= 2 * words ? "yes" : "no");
    printf("%08x %08x %08x %08x\n", fnv(""), fnv("a"), djb(""), djb("hello"));
    return 0;
}
