// Two sorted vectors become one, in which each number stands once.
#include <iostream>
#include <vector>
#include <gsl/span>

void print(gsl::span<const int> numbers) {
  for (std::size_t i = 0; i < numbers.size(); ++i) {
    if (i > 0) {
      std::cout << ' ';
    }
    std::cout << numbers[i];
  }
  std::cout << std::endl;
}

int main() {
  std::vector<int> a = {1, 4, 9, 16, 25};
  std::vector<int> b = {2, 4, 8, 16, 32, 64};
  std::vector<int> all;
  auto i = a.begin();
  auto j = b.begin();
  while (i != a.end() && j != b.end()) {
    if (*i < *j) {
      all.push_back(*i);
      ++i;
    } else if (*j < *i) {
      all.push_back(*j);
      ++j;
    } else {
      all.push_back(*i);
      ++i;
      ++j;
    }
  }
  for (; i != a.end(); ++i) {
    all.push_back(*i);
  }
  for (; j != b.end(); ++j) {
    all.push_back(*j);
  }
  print(all);
  return all.size();
}
