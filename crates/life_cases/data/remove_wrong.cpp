// The helper is given an iterator of the vector that it changes. No run faults, but that is known by its body alone.
#include <iostream>
#include <vector>

std::vector<int>::iterator remove(std::vector<int>& numbers, std::vector<int>::iterator at) {
  return numbers.erase(at);
}

int main() {
  std::vector<int> numbers = {9, 4, 6, 3, 5, 12, 7};
  int removed = 0;
  auto at = numbers.begin();
  while (at != numbers.end()) {
    if (*at % 3 == 0) {
      at = remove(numbers, at);
      ++removed;
    } else {
      ++at;
    }
  }
  for (int number : numbers) {
    std::cout << number << ' ';
  }
  std::cout << "without " << removed << std::endl;
  return numbers.size();
}
