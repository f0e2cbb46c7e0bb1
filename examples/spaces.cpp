// A receipt: amounts and currencies stand in one namespace, what writes them in another.
extern "C" int putchar(int);

namespace money {
  enum currency { euro, pound };
  typedef long cents;
  const cents whole = 100;
  void write(currency in) {
    switch (in) { case euro: putchar('e'); break; case pound: putchar('p'); }
  }
}

namespace text {
  namespace {
    int column = 0;
    void put(char letter) { putchar(letter); ++column; }
  }
  void write(const char *words) { while (*words) put(*words++); }
  void write(long number) {
    if (number > 9) write(number / 10);
    put('0' + number % 10);
  }
  void pad(int to) { while (column < to) put(' '); }
  void end() { put('\n'); column = 0; }
}

namespace text {
  using namespace money;
  void write(cents amount, currency in) {
    write(in);  // the one of `money`, which its argument finds
    write(amount / whole);
    put('.');
    write(amount % whole / 10);
    write(amount % 10);
  }
}

int main() {
  using namespace text;
  extern int lines;
  void line(const char *, cents, currency = euro);
  line("bread", 250);
  line("tea", 1475, pound);
  write(lines);
  write(" lines");
  end();
  return 0;
}

int lines = 0;
using namespace money;
void line(const char *what, cents amount, currency in) {
  namespace out = text;
  using namespace out;
  write(what);
  pad(8);
  write(amount, in);
  end();
  ++lines;
}
