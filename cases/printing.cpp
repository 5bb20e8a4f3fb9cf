#include <iostream>

int main() {
  int x = 4;
  int* p = &x;
  std::cout << *p << x;
  return *p;
}
