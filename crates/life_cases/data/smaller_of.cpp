// Two readings are raised by turns, the smaller one first: a helper gives it back by a reference.
#include <iostream>

int& smaller(int& a, int& b);

void raise(int& reading, int by) {
  reading += by;
}

int main() {
  int left = 14;
  int right = 11;
  for (int turn = 0; turn < 4; ++turn) {
    int& low = smaller(left, right);
    raise(low, 5);
    std::cout << left << ' ' << right << std::endl;
  }
  int* last = &left;
  {
    int draft = 9;
    int& low = smaller(left, draft);
    low += draft;
    last = &smaller(left, right);
  }
  *last = 0;
  std::cout << left << ' ' << right << std::endl;
  return left + right;
}

int& smaller(int& a, int& b) {
  if (b < a) {
    return b;
  }
  return a;
}
