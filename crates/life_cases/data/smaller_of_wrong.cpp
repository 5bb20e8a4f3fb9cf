// What a helper gives back may be the draft, which has ended when it is set.
#include <iostream>

int& smaller(int& a, int& b);

void raise(int& reading, int by) {
  reading += by;
}

int main() {
  int left = 14;
  int right = 11;
  for (int turn = 0; turn < 4; ++turn) {
    int& low = smaller(left, right);
    raise(low, 5);
    std::cout << left << ' ' << right << std::endl;
  }
  int* last = &left;
  {
    int draft = 9;
    int& low = smaller(left, draft);
    low += draft;
    last = &smaller(left, draft);
  }
  *last = 0;
  std::cout << left << ' ' << right << std::endl;
  return left + right;
}

int& smaller(int& a, int& b) {
  if (b < a) {
    return b;
  }
  return a;
}
