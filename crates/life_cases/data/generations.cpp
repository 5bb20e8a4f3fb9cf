// Generations of a row of cells: each is made in a vector of its own, which then takes the place of the one before.
#include <iostream>
#include <vector>

int main() {
  std::vector<int> cells = {0, 0, 0, 1, 0, 0, 0};
  for (int generation = 0; generation < 3; ++generation) {
    std::vector<int> next;
    for (std::size_t i = 0; i < cells.size(); ++i) {
      int alive = cells[i];
      if (i > 0) {
        alive += cells[i - 1];
      }
      if (i + 1 < cells.size()) {
        alive += cells[i + 1];
      }
      next.push_back(alive % 2);
    }
    cells = std::move(next);
    for (int cell : cells) {
      std::cout << cell;
    }
    std::cout << std::endl;
  }
  int sum = 0;
  for (int cell : cells) {
    sum += cell;
  }
  return sum;
}
