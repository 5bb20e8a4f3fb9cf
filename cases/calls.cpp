// Calls, recursion and input: `run cases/calls.cpp --entry sum --input FILE` adds the first number of FILE
// to the next so many.
#include <iostream>

int fib(int n) {
  if (n < 2) {
    return n;
  }
  return fib(n - 1) + fib(n - 2);
}

long sum(int first, int count) {
  long all = first;
  while (count > 0) {
    all += life::input();
    --count;
  }
  return all;
}

int main() {
  for (int i = 0; i < 10; ++i) {
    std::cout << fib(i) << ' ';
  }
  std::cout << std::endl;
  return 0;
}
