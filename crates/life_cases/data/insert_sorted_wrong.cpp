// The place is found as a pointer, and the vector grows before what is there moves up.
#include <iostream>
#include <vector>
#include <gsl/span>

// The first of the sorted numbers that isn't smaller, if there is one.
int* first_not_below(gsl::span<int> sorted, int number) {
  for (std::size_t i = 0; i < sorted.size(); ++i) {
    if (sorted[i] >= number) {
      return &sorted[i];
    }
  }
  return nullptr;
}

int main() {
  std::vector<int> sorted;
  int number = 4;
  for (int n = 0; n < 9; ++n) {
    number = (number * 7 + 5) % 31;
    int* place = first_not_below(sorted, number);
    sorted.push_back(number);
    if (place != nullptr) {
      int larger = *place;
      *place = number;
      sorted.back() = larger;
    }
  }
  for (std::size_t i = 0; i < sorted.size(); ++i) {
    std::cout << sorted[i] << ' ';
  }
  std::cout << std::endl;
  return 0;
}
