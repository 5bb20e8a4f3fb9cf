// Marks are kept sorted: one helper drops what is too low, another says where those above a limit begin.
#include <iostream>
#include <vector>

std::vector<int>::iterator first_above(std::vector<int>& marks, int limit) {
  auto it = marks.begin();
  while (it != marks.end() && *it <= limit) {
    ++it;
  }
  return it;
}

int drop_up_to(std::vector<int>& marks, int limit) {
  int count = 0;
  while (!marks.empty() && marks.front() <= limit) {
    marks.erase(marks.begin());
    ++count;
  }
  return count;
}

int main() {
  std::vector<int> marks = {31, 45, 58, 60, 77, 92};
  int dropped = drop_up_to(marks, 50);
  auto above = first_above(marks, 59);
  int raised = 0;
  while (above != marks.end()) {
    *above += 3;
    ++above;
    ++raised;
  }
  for (std::size_t i = 0; i < marks.size(); ++i) {
    std::cout << marks[i] << ' ';
  }
  std::cout << "dropped " << dropped << ", raised " << raised << std::endl;
  return marks.size();
}
