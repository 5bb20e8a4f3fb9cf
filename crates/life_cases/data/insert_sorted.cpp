// Numbers are put into a sorted vector: a search by halves finds the place, and what is larger moves up by one.
#include <iostream>
#include <vector>
#include <gsl/span>

// How many of the sorted numbers are smaller.
std::size_t count_below(gsl::span<const int> sorted, int number) {
  std::size_t low = 0;
  std::size_t high = sorted.size();
  while (low < high) {
    std::size_t middle = low + (high - low) / 2;
    if (sorted[middle] < number) {
      low = middle + 1;
    } else {
      high = middle;
    }
  }
  return low;
}

int main() {
  std::vector<int> sorted;
  int number = 4;
  for (int n = 0; n < 9; ++n) {
    number = (number * 7 + 5) % 31;
    std::size_t at = count_below(sorted, number);
    sorted.push_back(number);
    for (std::size_t i = sorted.size() - 1; i > at; --i) {
      sorted[i] = sorted[i - 1];
    }
    sorted[at] = number;
  }
  for (std::size_t i = 0; i < sorted.size(); ++i) {
    std::cout << sorted[i] << ' ';
  }
  std::cout << std::endl;
  return count_below(sorted, 15);
}
