// The end of a vector is cached, and the vector grows on the way there.
#include <iostream>
#include <vector>

int main() {
  std::vector<int> numbers = {3, 1, 4, 1, 5};
  auto end = numbers.end();
  std::size_t i = 0;
  auto it = numbers.begin();
  while (it != end) {
    numbers.push_back(*it * 2);
    ++i;
    it = numbers.begin() + i;
  }
  int sum = 0;
  for (i = 0; i < numbers.size(); ++i) {
    std::cout << numbers[i] << ' ';
    sum += numbers[i];
  }
  std::cout << std::endl;
  return sum;
}
