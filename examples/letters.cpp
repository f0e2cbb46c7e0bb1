// Letters of a text, counted by their kinds. What the namespaces declare is defined outside of them.
extern "C" int putchar(int);

namespace letters {
  enum kind { vowel, consonant, other };
  kind of(char);
  namespace counts {
    extern int all[3];
    void add(kind, int = 1);
    int of(kind);
  }
}

namespace out {
  void write(const char *);
  void write(long);
}

letters::kind letters::of(char letter) {
  switch (letter) {
  case 'a': case 'e': case 'i': case 'o': case 'u': return vowel;
  }
  return letter >= 'a' && letter <= 'z' ? consonant : other;
}

int letters::counts::all[] = { 0, 0, 0 };
void letters::counts::add(kind one, int count) { all[static_cast<int>(one)] += count; }
int letters::counts::of(kind one) { return all[static_cast<int>(one)]; }

void out::write(const char *text) { while (*text) ::putchar(*text++); }
void out::write(long number) {
  if (number > 9) write(number / 10);
  putchar('0' + number % 10);
}

int main() {
  namespace counts = letters::counts;
  using counts::add;
  using out::write;
  for (const char *at = "a unit is whole"; *at; ++at) add(letters::of(*at));
  counts::add(letters::other, 2);
  write(counts::of(letters::vowel));
  write(" vowels, ");
  write(counts::of(letters::consonant));
  write(" consonants, ");
  out::write(counts::all[2]);
  write(" others\n");
  return 0;
}
