// Six ways to sort, each over the same numbers.
extern "C" int printf(const char *, ...);

const int most = 24;
static unsigned seed = 12345u;
static int compared;

static int random_below(int n) {
    seed = seed * 1103515245u + 12345u;
    return (int)(seed >> 16 & 0x7fff) % n;
}

static void swap(int &a, int &b) {
    int c = a;
    a = b;
    b = c;
}

static bool less(int a, int b) {
    ++compared;
    return a < b;
}

static void insertion(int a[], int n) {
    for (int i = 1; i < n; i++) {
        int x = a[i], j;
        for (j = i; j > 0 && less(x, a[j - 1]); j--) a[j] = a[j - 1];
        a[j] = x;
    }
}

static void selection(int a[], int n) {
    for (int i = 0; i < n - 1; i++) {
        int least = i;
        for (int j = i + 1; j < n; j++)
            if (less(a[j], a[least])) least = j;
        if (least != i) swap(a[i], a[least]);
    }
}

static void shell(int a[], int n) {
    int gap = 1;
    while (gap < n / 3) gap = 3 * gap + 1;
    for (; gap > 0; gap /= 3)
        for (int i = gap; i < n; i++)
            for (int j = i; j >= gap && less(a[j], a[j - gap]); j -= gap) swap(a[j], a[j - gap]);
}

static void quick(int *a, int n) {
    if (n < 2) return;
    int pivot = a[n / 2], *low = a, *high = a + n - 1;
    while (low <= high) {
        while (less(*low, pivot)) ++low;
        while (less(pivot, *high)) --high;
        if (low <= high) swap(*low++, *high--);
    }
    quick(a, (int)(high - a) + 1);
    quick(low, (int)(a + n - low));
}

static void merge(int *a, int n) {
    static int room[most];
    if (n < 2) return;
    int half = n / 2;
    merge(a, half);
    merge(a + half, n - half);
    for (int i = 0; i < half; i++) room[i] = a[i];
    int *from = room, *end = room + half, *other = a + half, *to = a;
    while (from < end)
        if (other < a + n && less(*other, *from)) *to++ = *other++;
        else *to++ = *from++;
}

static void sift(int a[], int i, int n) {
    for (int child; (child = 2 * i + 1) < n; i = child) {
        if (child + 1 < n && less(a[child], a[child + 1])) child++;
        if (!less(a[i], a[child])) break;
        swap(a[i], a[child]);
    }
}

static void heap(int a[], int n) {
    for (int i = n / 2; i-- > 0;) sift(a, i, n);
    while (n > 1) {
        swap(a[0], a[--n]);
        sift(a, 0, n);
    }
}

static bool is_sorted(const int *a, int n) {
    for (int i = 1; i < n; i++)
        if (a[i] < a[i - 1]) return false;
    return true;
}

int main() {
    void (*ways[])(int *, int) = { insertion, selection, shell, quick, merge, heap };
    const char *const names[] = { "insertion", "selection", "shell", "quick", "merge", "heap" };
    int numbers[most];
    for (int i = 0; i < most; i++) numbers[i] = random_below(100);
    for (unsigned w = 0; w < sizeof ways / sizeof ways[0]; w++) {
        int a[most];
        for (int i = 0; i < most; i++) a[i] = numbers[i];
        compared = 0;
        ways[w](a, most);
        printf("%-9s %s, %d comparisons\n", names[w], is_sorted(a, most) ? "sorted" : "not sorted", compared);
        if (w == 0) {
            for (int i = 0; i < most; i++) printf(i ? " %d" : "%d", a[i]);
            printf("\n");
        }
    }
    return 0;
}
