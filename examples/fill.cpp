const int kilo = 1 << 10;
extern char buffer[kilo * 2];
int fill(char *, unsigned long);
int fill(const char *, ...);
int got = fill(buffer, sizeof buffer), half = (got + 1) / 2;
const char *end = got > 0 ? buffer + half : 0;
