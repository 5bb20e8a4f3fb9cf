// Of equal neighbours one is erased, and the one that stays is told by an iterator that pointed behind what was erased.
#include <iostream>
#include <vector>

int main() {
  std::vector<int> numbers = {1, 1, 2, 3, 3, 3, 5, 8, 8};
  auto it = numbers.begin();
  while (it != numbers.end()) {
    auto next = it + 1;
    if (next != numbers.end() && *next == *it) {
      it = numbers.erase(it);
      std::cout << "one " << *next << " less" << std::endl;
    } else {
      it = next;
    }
  }
  for (std::size_t i = 0; i < numbers.size(); ++i) {
    std::cout << numbers[i] << ' ';
  }
  std::cout << std::endl;
  return numbers.size();
}
