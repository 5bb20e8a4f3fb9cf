// A task may bring a further one: these are put aside, and gone over when all of the round are done.
#include <iostream>
#include <vector>

int main() {
  std::vector<int> tasks = {7, 2, 9};
  std::vector<int> further;
  int rounds = 0;
  while (!tasks.empty()) {
    for (int task : tasks) {
      std::cout << task << ' ';
      if (task > 3) {
        further.push_back(task / 2);
      }
    }
    tasks = std::move(further);
    further = {};
    ++rounds;
  }
  std::cout << std::endl;
  return rounds;
}
