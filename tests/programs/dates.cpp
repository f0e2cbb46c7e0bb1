// Days, weeks and months.
extern "C" int putchar(int);
extern "C" int printf(const char *, ...);

enum Month { January = 1, February, March, April, May, June, July, August, September, October, November, December };
enum { Sunday, Monday, Tuesday, Wednesday, Thursday, Friday, Saturday };

inline bool is_leap(int year) { return year % 4 == 0 && (year % 100 != 0 || year % 400 == 0); }

int days_in(int month, int year) {
    switch (month) {
    case April: case June: case September: case November:
        return 30;
    case February:
        return is_leap(year) ? 29 : 28;
    default:
        return 31;
    }
}

// days since the first of March of the year 0
long day_number(int year, int month, int day) {
    if (month <= 2) --year, month += 12;
    return 365L * year + year / 4 - year / 100 + year / 400 + (153 * (month - 3) + 2) / 5 + day - 1;
}

void date_of(long number, int &year, int &month, int &day) {
    year = number * 400 / 146097;
    for (; day_number(year + 1, March, 1) <= number; ++year) ;
    for (; day_number(year, March, 1) > number; --year) ;
    long rest = number - day_number(year, March, 1);
    month = (5 * rest + 2) / 153;
    day = rest - (153 * month + 2) / 5 + 1;
    month += 3;
    if (month > 12) {
        month -= 12;
        ++year;
    }
}

int weekday(int year, int month, int day) {
    return (day_number(year, month, day) + 3) % 7;
}

const char *name_of(int weekday) {
    switch (weekday) {
    case Sunday: return "Sunday";
    case Monday: return "Monday";
    case Tuesday: return "Tuesday";
    case Wednesday: return "Wednesday";
    case Thursday: return "Thursday";
    case Friday: return "Friday";
    case Saturday: return "Saturday";
    }
    return 0;
}

void easter(int year, int &month, int &day) {
    int a = year % 19, b = year / 100, c = year % 100, d = b / 4, e = b % 4, g = (8 * b + 13) / 25;
    int h = (19 * a + b - d - g + 15) % 30, j = c / 4, k = c % 4, m = (a + 11 * h) / 319, r = (2 * e + 2 * j - k - h + m + 32) % 7;
    month = (h - m + r + 90) / 25;
    day = (h - m + r + month + 19) % 32;
}

void calendar(int year, int month) {
    static const char head[] = "Su Mo Tu We Th Fr Sa";
    printf("%14d/%d\n%s\n", month, year, head);
    int column = weekday(year, month, 1);
    for (int i = 0; i < column; ++i) printf("   ");
    for (int day = 1, last = days_in(month, year); day <= last; ++day) {
        printf("%2d", day);
        if (++column == 7 || day == last) {
            putchar('\n');
            column = 0;
        } else putchar(' ');
    }
}

int main() {
    printf("%s\n", name_of(weekday(1998, September, 1)));
    printf("%s %s %s\n", name_of(weekday(1969, July, 20)), name_of(weekday(2000, February, 29)), name_of(weekday(1900, March, 1)));
    printf("%ld days\n", day_number(2000, January, 1) - day_number(1900, January, 1));
    calendar(1998, September);
    calendar(2000, February);
    for (int year = 1998; year < 2004; ++year) {
        int month, day;
        easter(year, month, day);
        printf("%d-%02d-%02d%s", year, month, day, year == 2003 ? "\n" : " ");
    }
    int wrong = 0, fridays = 0;
    for (long n = day_number(1890, January, 1), end = day_number(2110, December, 31); n <= end; ++n) {
        int year, month, day;
        date_of(n, year, month, day);
        if (day_number(year, month, day) != n || day < 1 || day > days_in(month, year)) ++wrong;
        if (day == 13) switch (weekday(year, month, day)) case Friday: ++fridays;
    }
    printf("%d wrong, %d times Friday the 13th\n", wrong, fridays);
    return 0;
}
