// A walk over a vector is a struct of two iterators: it is made anew when the vector has grown.
#include <iostream>
#include <vector>

struct Walk {
  std::vector<int>::iterator at;
  std::vector<int>::iterator end;
};

int main() {
  std::vector<int> steps = {3, 9, 4, 1};
  Walk walk{steps.begin(), steps.end()};
  int sum = 0;
  while (walk.at != walk.end) {
    *walk.at *= 2;
    sum += *walk.at;
    ++walk.at;
  }
  steps.push_back(sum);
  walk.at = steps.begin() + 1;
  walk.end = steps.end();
  while (walk.at != walk.end) {
    std::cout << *walk.at << ' ';
    ++walk.at;
  }
  std::cout << std::endl;
  walk.at = walk.end - 1;
  return *walk.at;
}
