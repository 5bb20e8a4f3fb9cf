// The least of the numbers that are left is put behind all others; its place is filled by a pointer to where it was before that.
#include <iostream>
#include <vector>
#include <gsl/span>

// Where the least number is; of none there is nothing.
int* least(gsl::span<int> numbers) {
  int* found = nullptr;
  for (std::size_t i = 0; i < numbers.size(); ++i) {
    if (found == nullptr || numbers[i] < *found) {
      found = &numbers[i];
    }
  }
  return found;
}

int main() {
  std::vector<int> numbers = {31, 4, 15, 9, 26, 5, 35};
  for (std::size_t left = numbers.size(); left > 0; --left) {
    gsl::span<int> all = numbers;
    int* first = least(all.subspan(0, left));
    if (first != nullptr) {
      numbers.push_back(*first);
      *first = numbers[left - 1];
    }
  }
  for (std::size_t i = 7; i < numbers.size(); ++i) {
    std::cout << numbers[i] << ' ';
  }
  std::cout << std::endl;
  return numbers.size();
}
