// The longest run of rising levels, by a helper that calls itself behind the first run; dry days were taken out before.
#include <iostream>
#include <vector>
#include <gsl/span>

gsl::span<const int> longest_run(gsl::span<const int> row);

gsl::span<const int> first_run(gsl::span<const int> row) {
  std::size_t n = 1;
  while (n < row.size() && row[n - 1] < row[n]) {
    ++n;
  }
  return row.subspan(0, n);
}

void keep_wet(std::vector<int>& wet, gsl::span<const int> levels) {
  for (int level : levels) {
    if (level > 0) {
      wet.push_back(level);
    }
  }
}

int main() {
  std::vector<int> levels = {3, 0, 5, 4, 6, 0, 7, 9, 2, 8, 0, 1};
  std::vector<int> wet;
  keep_wet(wet, levels);
  gsl::span<const int> run = longest_run(wet);
  for (int level : run) {
    std::cout << level << ' ';
  }
  std::cout << "of " << wet.size() << std::endl;
  return run.size();
}

gsl::span<const int> longest_run(gsl::span<const int> row) {
  if (row.empty()) {
    return row;
  }
  gsl::span<const int> first = first_run(row);
  gsl::span<const int> other = longest_run(row.subspan(first.size(), row.size() - first.size()));
  if (other.size() > first.size()) {
    return other;
  }
  return first;
}
