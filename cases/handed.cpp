// Functions that take and give pointers and references, and say what they promise.
#include <cassert>
#include <iostream>

// The larger of two; how often it was asked for is counted.
int& larger(int& a, int& b, int& asked) {
  ++asked;
  if (a < b) {
    return b;
  }
  return a;
}

// One of two, or null: never anything else.
[[life::ret(a, b, null)]] int* pick(int* a, int* b, bool first) {
  if (first) {
    return a;
  }
  return b;
}

void clear([[life::nonnull]] int* p) {
  *p = 0;
}

int main() {
  int x = 3;
  int y = 4;
  int asked = 0;
  larger(x, y, asked) = 10;
  int* p = pick(&x, &y, asked == 1);
  if (p) {
    clear(p);
  }
  assert(x == 0);
  std::cout << "x = " << x << ", y = " << y << ", asked " << asked << std::endl;
  return y;
}
