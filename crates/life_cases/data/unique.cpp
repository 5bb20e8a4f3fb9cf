// Of equal neighbours in a sorted vector one stays: the others are erased.
#include <iostream>
#include <vector>

int main() {
  std::vector<int> numbers = {1, 1, 2, 3, 3, 3, 5, 8, 8};
  auto it = numbers.begin();
  while (it != numbers.end()) {
    auto next = it + 1;
    if (next != numbers.end() && *next == *it) {
      it = numbers.erase(it);
    } else {
      it = next;
    }
  }
  for (std::size_t i = 0; i < numbers.size(); ++i) {
    std::cout << numbers[i] << ' ';
  }
  std::cout << std::endl;
  return numbers.size();
}
