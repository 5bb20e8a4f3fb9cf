// How long the last group is, is asked when it has been moved to the others.
#include <iostream>
#include <vector>

int main() {
  std::vector<int> numbers = {2, 5, 9, 4, 8, 1, 3, 7};
  std::vector<std::vector<int>> groups;
  std::vector<int> group;
  for (int number : numbers) {
    if (!group.empty() && number < group.back()) {
      groups.push_back(std::move(group));
      group = {};
    }
    group.push_back(number);
  }
  groups.push_back(std::move(group));
  std::size_t open = group.size();
  for (const std::vector<int>& each : groups) {
    for (int number : each) {
      std::cout << number << ' ';
    }
    std::cout << '|';
  }
  std::cout << " the last has " << open << std::endl;
  return groups.size();
}
