// A task may bring a further one, which is put behind the others while they are gone over.
#include <iostream>
#include <vector>

int main() {
  std::vector<int> tasks = {7, 2, 9};
  int rounds = 0;
  for (int task : tasks) {
    std::cout << task << ' ';
    if (task > 3) {
      tasks.push_back(task / 2);
    }
    ++rounds;
  }
  std::cout << std::endl;
  return rounds;
}
