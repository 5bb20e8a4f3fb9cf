// A walk that goes on after the vector has grown: what it holds are positions of the buffer before.
#include <iostream>
#include <vector>

struct Walk {
  std::vector<int>::iterator at;
  std::vector<int>::iterator end;
};

int main() {
  std::vector<int> steps = {3, 9, 4, 1};
  Walk walk{steps.begin(), steps.end()};
  int sum = 0;
  while (walk.at != walk.end) {
    *walk.at *= 2;
    sum += *walk.at;
    ++walk.at;
  }
  steps.push_back(sum);
  while (walk.at != walk.end) {
    std::cout << *walk.at << ' ';
    ++walk.at;
  }
  std::cout << std::endl;
  walk.at = walk.end - 1;
  return *walk.at;
}
