// Numbers in groups that end where one is smaller than the last: each group is moved to the others when it is whole.
#include <iostream>
#include <vector>

int main() {
  std::vector<int> numbers = {2, 5, 9, 4, 8, 1, 3, 7};
  std::vector<std::vector<int>> groups;
  std::vector<int> group;
  for (int number : numbers) {
    if (!group.empty() && number < group.back()) {
      groups.push_back(std::move(group));
      group = {};
    }
    group.push_back(number);
  }
  std::size_t open = group.size();
  groups.push_back(std::move(group));
  for (const std::vector<int>& each : groups) {
    for (int number : each) {
      std::cout << number << ' ';
    }
    std::cout << '|';
  }
  std::cout << " the last has " << open << std::endl;
  return groups.size();
}
