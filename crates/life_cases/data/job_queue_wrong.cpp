// The first job is named by a reference, and looked at when it has left the queue.
#include <iostream>
#include <vector>

int main() {
  std::vector<int> jobs = {5, 12, 3};
  int done = 0;
  int hours = 0;
  while (!jobs.empty()) {
    const int& job = jobs.front();
    jobs.erase(jobs.begin());
    hours += job;
    if (hours > 15) {
      jobs.clear();
    }
    ++done;
  }
  std::cout << done << " jobs in " << hours << " hours" << std::endl;
  return done;
}
