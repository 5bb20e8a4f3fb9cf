// Two numbers change places through pointers that are never null, as the head of the helper says.
#include <iostream>
#include <vector>

void exchange([[life::nonnull]] int* a, [[life::nonnull]] int* b) {
  int kept = *a;
  *a = *b;
  *b = kept;
}

// The first number below the limit, if there is one.
int* first_below(std::vector<int>& numbers, int limit) {
  for (std::size_t i = 0; i < numbers.size(); ++i) {
    if (numbers[i] < limit) {
      return &numbers[i];
    }
  }
  return nullptr;
}

int main() {
  std::vector<int> numbers = {8, 6, 4, 9, 2};
  int exchanged = 0;
  for (int limit = 8; limit > 0; limit -= 3) {
    int* low = first_below(numbers, limit);
    if (low != nullptr) {
      exchange(&numbers.front(), low);
      ++exchanged;
    }
  }
  for (std::size_t i = 0; i < numbers.size(); ++i) {
    std::cout << numbers[i] << ' ';
  }
  std::cout << std::endl;
  return exchanged;
}
