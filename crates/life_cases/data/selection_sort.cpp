// A vector is sorted by a function that swaps what two pointers point to.
#include <iostream>
#include <vector>
#include <gsl/span>

void swap_values([[life::nonnull]] int* a, [[life::nonnull]] int* b) {
  int kept = *a;
  *a = *b;
  *b = kept;
}

void sort(gsl::span<int> numbers) {
  for (std::size_t i = 0; i < numbers.size(); ++i) {
    int* least = &numbers[i];
    for (std::size_t j = i + 1; j < numbers.size(); ++j) {
      if (numbers[j] < *least) {
        least = &numbers[j];
      }
    }
    swap_values(&numbers[i], least);
  }
}

int main() {
  std::vector<int> numbers = {31, 4, 15, 9, 26, 5, 35};
  sort(numbers);
  for (std::size_t i = 0; i < numbers.size(); ++i) {
    std::cout << numbers[i] << ' ';
  }
  std::cout << std::endl;
  return numbers[3];
}
