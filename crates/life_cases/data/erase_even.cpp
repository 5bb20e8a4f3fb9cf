// Even numbers are erased while an iterator goes through the vector: it goes on where erase says.
#include <iostream>
#include <vector>

int main() {
  std::vector<int> numbers;
  for (int i = 0; i < 12; ++i) {
    numbers.push_back(i * i % 11);
  }
  int erased = 0;
  auto it = numbers.begin();
  while (it != numbers.end()) {
    if (*it % 2 == 0) {
      it = numbers.erase(it);
      ++erased;
    } else {
      ++it;
    }
  }
  for (auto left = numbers.begin(); left != numbers.end(); ++left) {
    std::cout << *left << ' ';
  }
  std::cout << "without " << erased << std::endl;
  return numbers.size();
}
