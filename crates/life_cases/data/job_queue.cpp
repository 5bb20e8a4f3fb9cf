// Jobs wait in a vector: the first is taken out and done, and a long one puts its second half behind the others.
#include <iostream>
#include <vector>

int main() {
  std::vector<int> jobs = {5, 12, 3};
  int done = 0;
  int hours = 0;
  while (!jobs.empty()) {
    int job = jobs.front();
    jobs.erase(jobs.begin());
    std::cout << job << ' ';
    if (job > 4) {
      jobs.push_back(job / 2);
      job -= job / 2;
    }
    hours += job;
    ++done;
  }
  std::cout << "in " << hours << " hours" << std::endl;
  return done;
}
