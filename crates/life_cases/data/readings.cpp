// The highest of some readings is copied before another one is overwritten by it, so that no call is given one twice.
#include <iostream>
#include <string>
#include <vector>

struct Reading {
  std::string place;
  int level;
};

const Reading& highest(const std::vector<Reading>& readings);

void overwrite(Reading& reading, const Reading& by) {
  reading.level = by.level;
  reading.place = by.place + '\'';
}

int main() {
  std::vector<Reading> readings;
  std::vector<int> levels = {310, 295, 342, 320};
  std::string place = "A";
  for (int level : levels) {
    readings.push_back(Reading{place, level});
    place[0] += 1;
  }
  Reading most = highest(readings);
  overwrite(readings[1], most);
  for (const Reading& reading : readings) {
    std::cout << reading.place << ' ' << reading.level << std::endl;
  }
  return highest(readings).level - 300;
}

const Reading& highest(const std::vector<Reading>& readings) {
  std::size_t best = 0;
  for (std::size_t i = 1; i < readings.size(); ++i) {
    if (readings[best].level < readings[i].level) {
      best = i;
    }
  }
  return readings[best];
}
