// One of Fibonacci's numbers is named by a reference to its place while the next one is put behind it.
#include <iostream>
#include <vector>

long& fibonacci(std::size_t n, std::vector<long>& known) {
  if (n < known.size()) {
    return known[n];
  }
  long& a = fibonacci(n - 2, known);
  long b = fibonacci(n - 1, known);
  known.push_back(a + b);
  return known.back();
}

int main() {
  std::vector<long> known = {0, 1};
  std::cout << fibonacci(30, known) << std::endl;
  std::cout << fibonacci(12, known) << std::endl;
  return known.size();
}
