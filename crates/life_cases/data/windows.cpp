// The largest sum of three numbers that stand side by side, by a span that moves over a vector.
#include <iostream>
#include <vector>
#include <gsl/span>

int sum(gsl::span<const int> window) {
  int total = 0;
  for (std::size_t i = 0; i < window.size(); ++i) {
    total += window[i];
  }
  return total;
}

int main() {
  std::vector<int> levels;
  int level = 7;
  for (int i = 0; i < 10; ++i) {
    level = (level * 5 + 3) % 23;
    levels.push_back(level);
  }
  gsl::span<const int> all = levels;
  gsl::span<const int> best = all.subspan(0, 3);
  for (std::size_t i = 1; i + 3 <= all.size(); ++i) {
    gsl::span<const int> window = all.subspan(i, 3);
    if (sum(window) > sum(best)) {
      best = window;
    }
  }
  std::cout << best[0] << " + " << best[1] << " + " << best[2] << " = " << sum(best) << std::endl;
  return sum(best);
}
