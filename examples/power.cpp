int power(int base, unsigned exponent) {
  int result = 1;
  for (; exponent; exponent >>= 1) {
    if (exponent & 1) result *= base;
    base *= base;
  }
  return result;
}
long power(long base, unsigned exponent) { return exponent ? base * power(base, exponent - 1) : 1; }
