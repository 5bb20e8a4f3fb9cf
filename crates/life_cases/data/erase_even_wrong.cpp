// Even numbers are erased while an iterator goes through the vector, and the iterator goes on as if nothing had happened.
#include <iostream>
#include <vector>

int main() {
  std::vector<int> numbers;
  for (int i = 0; i < 12; ++i) {
    numbers.push_back(i * i % 11);
  }
  int erased = 0;
  for (auto it = numbers.begin(); it != numbers.end(); ++it) {
    if (*it % 2 == 0) {
      numbers.erase(it);
      ++erased;
    }
  }
  for (auto left = numbers.begin(); left != numbers.end(); ++left) {
    std::cout << *left << ' ';
  }
  std::cout << "without " << erased << std::endl;
  return numbers.size();
}
