// A span is made over a vector that grows after that.
#include <iostream>
#include <vector>
#include <gsl/span>

int sum(gsl::span<const int> window) {
  int total = 0;
  for (std::size_t i = 0; i < window.size(); ++i) {
    total += window[i];
  }
  return total;
}

int main() {
  std::vector<int> levels = {7, 15, 9};
  gsl::span<const int> first = levels;
  int level = 2;
  for (int i = 0; i < 10; ++i) {
    level = (level * 5 + 3) % 23;
    levels.push_back(level);
  }
  gsl::span<const int> all = levels;
  gsl::span<const int> last = all.subspan(all.size() - 3, 3);
  std::cout << "last " << sum(last) << std::endl;
  return sum(first);
}
