// The second vector is merged into the first one, while an iterator goes through that.
#include <iostream>
#include <vector>
#include <gsl/span>

void print(gsl::span<const int> numbers) {
  for (std::size_t i = 0; i < numbers.size(); ++i) {
    if (i > 0) {
      std::cout << ' ';
    }
    std::cout << numbers[i];
  }
  std::cout << std::endl;
}

int main() {
  std::vector<int> a = {1, 4, 9, 16, 25};
  std::vector<int> b = {2, 4, 8, 16, 32, 64};
  auto i = a.begin();
  auto j = b.begin();
  while (i != a.end() && j != b.end()) {
    if (*j < *i) {
      a.push_back(*j);
      ++j;
    } else {
      ++i;
    }
  }
  print(a);
  return a.size();
}
