// A total is shown at each zero, also where none has been made since the last.
#include <iostream>
#include <memory>
#include <vector>

int main() {
  std::vector<int> numbers = {4, 5, 0, 0, 7};
  std::unique_ptr<int> total;
  for (int number : numbers) {
    if (number == 0) {
      std::cout << "total " << *total << std::endl;
      total.reset();
    } else {
      if (total == nullptr) {
        total = std::make_unique<int>(0);
      }
      *total += number;
    }
  }
  if (!total) {
    return 0;
  }
  return *total;
}
