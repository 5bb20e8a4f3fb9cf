// A vector is sorted by parts: each call has a span of what it sorts.
#include <iostream>
#include <vector>
#include <gsl/span>

void swap_values(int& a, int& b) {
  int kept = a;
  a = b;
  b = kept;
}

void sort(gsl::span<int> part) {
  if (part.size() < 2) {
    return;
  }
  int& pivot = part[part.size() - 1];
  std::size_t smaller = 0;
  for (std::size_t i = 0; i + 1 < part.size(); ++i) {
    if (part[i] < pivot) {
      swap_values(part[i], part[smaller]);
      ++smaller;
    }
  }
  swap_values(pivot, part[smaller]);
  sort(part.subspan(0, smaller));
  sort(part.subspan(smaller + 1, part.size() - smaller - 1));
}

int main() {
  std::vector<int> numbers;
  int number = 9;
  for (int i = 0; i < 40; ++i) {
    number = (number * 29 + 11) % 101;
    numbers.push_back(number);
  }
  sort(numbers);
  int steps = 0;
  for (std::size_t i = 1; i < numbers.size(); ++i) {
    if (numbers[i - 1] > numbers[i]) {
      return 0;
    }
    steps += numbers[i] - numbers[i - 1];
  }
  std::cout << numbers.front() << " to " << numbers.back() << std::endl;
  return steps;
}
