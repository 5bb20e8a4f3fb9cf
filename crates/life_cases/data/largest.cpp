// The largest number of some, if there are any: a pointer into the vector, or null.
#include <iostream>
#include <vector>
#include <gsl/span>

const int* largest(gsl::span<const int> numbers) {
  const int* best = nullptr;
  for (std::size_t i = 0; i < numbers.size(); ++i) {
    if (best == nullptr || *best < numbers[i]) {
      best = &numbers[i];
    }
  }
  return best;
}

int main() {
  std::vector<int> numbers = {3, 8, 5};
  const int* best = largest(numbers);
  int found = 0;
  if (best != nullptr) {
    found = *best;
  }
  numbers.clear();
  best = largest(numbers);
  if (best == nullptr) {
    std::cout << "largest was " << found << ", now there is none" << std::endl;
  } else {
    found = *best;
  }
  return found;
}
