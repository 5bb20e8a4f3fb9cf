// The greater of a variable and a temporary is a reference that may name the temporary, which has ended.
#include <iostream>

struct Fraction {
  int top;
  int bottom;
};

int divisor(int a, int b) {
  if (b == 0) {
    return a;
  }
  return divisor(b, a % b);
}

Fraction reduced(Fraction fraction) {
  int by = divisor(fraction.top, fraction.bottom);
  return Fraction{fraction.top / by, fraction.bottom / by};
}

Fraction sum(Fraction a, Fraction b) {
  return reduced(Fraction{a.top * b.bottom + b.top * a.bottom, a.bottom * b.bottom});
}

const Fraction& greater(const Fraction& a, const Fraction& b) {
  if (a.top * b.bottom < b.top * a.bottom) {
    return b;
  }
  return a;
}

int main() {
  Fraction total{0, 1};
  for (int i = 1; i <= 4; ++i) {
    total = sum(total, Fraction{1, i});
  }
  std::cout << total.top << '/' << total.bottom << std::endl;
  const Fraction& most = greater(total, Fraction{2, 1});
  std::cout << most.top << '/' << most.bottom << std::endl;
  return most.top;
}
