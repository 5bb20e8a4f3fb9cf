// A sorted table is searched by halves: what is found comes as a pointer, and null where there is nothing.
#include <iostream>
#include <vector>
#include <gsl/span>

int* find(gsl::span<int> sorted, int wanted) {
  if (sorted.empty()) {
    return nullptr;
  }
  std::size_t middle = sorted.size() / 2;
  if (sorted[middle] == wanted) {
    return &sorted[middle];
  }
  if (wanted < sorted[middle]) {
    return find(sorted.subspan(0, middle), wanted);
  }
  return find(sorted.subspan(middle + 1, sorted.size() - middle - 1), wanted);
}

int main() {
  std::vector<int> table = {2, 3, 5, 7, 11, 13, 17, 19};
  int found = 0;
  for (int wanted = 5; wanted < 20; wanted += 4) {
    int* place = find(table, wanted);
    if (place != nullptr) {
      std::cout << *place << ' ';
      ++found;
    } else {
      std::cout << "no " << wanted << ' ';
    }
  }
  std::cout << std::endl;
  return found;
}
