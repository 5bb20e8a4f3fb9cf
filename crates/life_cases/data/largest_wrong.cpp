// Nothing asks whether there is a largest number at all, and it is told when the vector has no numbers any more.
#include <iostream>
#include <vector>
#include <gsl/span>

const int* largest(gsl::span<const int> numbers) {
  const int* best = nullptr;
  for (std::size_t i = 0; i < numbers.size(); ++i) {
    if (best == nullptr || *best < numbers[i]) {
      best = &numbers[i];
    }
  }
  return best;
}

int main() {
  std::vector<int> numbers = {3, 8, 5};
  const int* best = largest(numbers);
  std::cout << "largest " << *best << std::endl;
  numbers.clear();
  if (best != nullptr) {
    std::cout << "largest was " << *best << std::endl;
  }
  return numbers.size();
}
