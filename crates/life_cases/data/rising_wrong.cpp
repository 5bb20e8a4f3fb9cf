// The longest run of rising levels is a part of a vector that the helper made for itself.
#include <iostream>
#include <vector>
#include <gsl/span>

gsl::span<const int> longest_run(gsl::span<const int> row);

gsl::span<const int> first_run(gsl::span<const int> row) {
  std::size_t n = 1;
  while (n < row.size() && row[n - 1] < row[n]) {
    ++n;
  }
  return row.subspan(0, n);
}

gsl::span<const int> longest_wet_run(gsl::span<const int> levels) {
  std::vector<int> wet;
  for (int level : levels) {
    if (level > 0) {
      wet.push_back(level);
    }
  }
  return longest_run(wet);
}

int main() {
  std::vector<int> levels = {3, 0, 5, 4, 6, 0, 7, 9, 2, 8, 0, 1};
  gsl::span<const int> run = longest_wet_run(levels);
  for (int level : run) {
    std::cout << level << ' ';
  }
  std::cout << "of " << levels.size() << std::endl;
  return run.size();
}

gsl::span<const int> longest_run(gsl::span<const int> row) {
  if (row.empty()) {
    return row;
  }
  gsl::span<const int> first = first_run(row);
  gsl::span<const int> other = longest_run(row.subspan(first.size(), row.size() - first.size()));
  if (other.size() > first.size()) {
    return other;
  }
  return first;
}
