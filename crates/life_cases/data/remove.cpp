// Numbers are taken out while one goes over them: the helper is given a position, and no iterator of the same vector.
#include <iostream>
#include <vector>

void remove(std::vector<int>& numbers, std::size_t at) {
  numbers.erase(numbers.begin() + at);
}

int main() {
  std::vector<int> numbers = {9, 4, 6, 3, 5, 12, 7};
  int removed = 0;
  std::size_t at = 0;
  while (at < numbers.size()) {
    if (numbers[at] % 3 == 0) {
      remove(numbers, at);
      ++removed;
    } else {
      ++at;
    }
  }
  for (int number : numbers) {
    std::cout << number << ' ';
  }
  std::cout << "without " << removed << std::endl;
  return numbers.size();
}
