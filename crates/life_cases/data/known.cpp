// Fibonacci's numbers by a helper that keeps those that it knows, and gives the place of one back.
#include <iostream>
#include <vector>

long& fibonacci(std::size_t n, std::vector<long>& known) {
  if (n < known.size()) {
    return known[n];
  }
  long a = fibonacci(n - 2, known);
  long b = fibonacci(n - 1, known);
  known.push_back(a + b);
  return known.back();
}

int main() {
  std::vector<long> known = {0, 1};
  std::cout << fibonacci(30, known) << std::endl;
  std::cout << fibonacci(12, known) << std::endl;
  return known.size();
}
