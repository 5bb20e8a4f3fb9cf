// A total is made when the first number comes, and given up where a zero stands.
#include <iostream>
#include <memory>
#include <vector>

int main() {
  std::vector<int> numbers = {4, 5, 0, 0, 7};
  std::unique_ptr<int> total;
  for (int number : numbers) {
    if (number == 0) {
      if (total) {
        std::cout << "total " << *total << std::endl;
      } else {
        std::cout << "nothing" << std::endl;
      }
      total.reset();
    } else {
      if (total == nullptr) {
        total = std::make_unique<int>(0);
      }
      *total += number;
    }
  }
  if (!total) {
    return 0;
  }
  return *total;
}
