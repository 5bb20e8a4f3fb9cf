// Each number of a vector is followed by its double at the vector's end: as many as there were when it began.
#include <iostream>
#include <vector>

int main() {
  std::vector<int> numbers = {3, 1, 4, 1, 5};
  const std::size_t there = numbers.size();
  for (std::size_t i = 0; i < there; ++i) {
    numbers.push_back(numbers[i] * 2);
  }
  // From here on the vector stays as it is, and so does its end.
  auto end = numbers.end();
  int sum = 0;
  for (auto it = numbers.begin(); it != end; ++it) {
    std::cout << *it << ' ';
    sum += *it;
  }
  std::cout << std::endl;
  return sum;
}
