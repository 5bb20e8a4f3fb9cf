// Tasks are done by their days: the next one is found by an iterator, is copied out, and is erased.
#include <iostream>
#include <string>
#include <vector>

struct Task {
  std::string name;
  int day;
};

Task planned(std::string name, int day) {
  Task task;
  task.name = std::move(name);
  task.day = day;
  return task;
}

int main() {
  std::vector<Task> tasks;
  tasks.push_back(planned("paint", 4));
  tasks.push_back(planned("measure", 1));
  tasks.push_back(planned("sand", 3));
  tasks.push_back(planned("clean", 1));
  int days = 0;
  while (!tasks.empty()) {
    auto next = tasks.begin();
    for (auto it = tasks.begin(); it != tasks.end(); ++it) {
      if (it->day < next->day) {
        next = it;
      }
    }
    Task task = *next;
    tasks.erase(next);
    days += task.day;
    std::cout << task.name << '(' << task.day << ") ";
  }
  std::cout << std::endl;
  return days;
}
