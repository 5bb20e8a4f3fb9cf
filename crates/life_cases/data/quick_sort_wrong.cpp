// A part to sort is chosen in a block, of a copy that ends with it.
#include <iostream>
#include <vector>
#include <gsl/span>

void swap_values(int& a, int& b) {
  int kept = a;
  a = b;
  b = kept;
}

void sort(gsl::span<int> part) {
  if (part.size() < 2) {
    return;
  }
  int& pivot = part[part.size() - 1];
  std::size_t smaller = 0;
  for (std::size_t i = 0; i + 1 < part.size(); ++i) {
    if (part[i] < pivot) {
      swap_values(part[i], part[smaller]);
      ++smaller;
    }
  }
  swap_values(pivot, part[smaller]);
  sort(part.subspan(0, smaller));
  sort(part.subspan(smaller + 1, part.size() - smaller - 1));
}

int main() {
  std::vector<int> numbers = {9, 71, 40, 58, 12, 53, 33};
  gsl::span<int> part;
  {
    std::vector<int> copy = numbers;
    part = copy;
    part = part.subspan(2, 4);
  }
  sort(part);
  std::cout << part.size() << std::endl;
  return numbers[0];
}
