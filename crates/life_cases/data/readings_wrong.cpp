// A reading is overwritten by the highest one where they lie: for all that is known they may be one and the same.
#include <iostream>
#include <string>
#include <vector>

struct Reading {
  std::string place;
  int level;
};

const Reading& highest(const std::vector<Reading>& readings);

void overwrite(Reading& reading, const Reading& by) {
  reading.level = by.level;
  reading.place = by.place + '\'';
}

int main() {
  std::vector<Reading> readings;
  std::vector<int> levels = {310, 295, 342, 320};
  std::string place = "A";
  for (int level : levels) {
    readings.push_back(Reading{place, level});
    place[0] += 1;
  }
  overwrite(readings[1], highest(readings));
  for (const Reading& reading : readings) {
    std::cout << reading.place << ' ' << reading.level << std::endl;
  }
  return highest(readings).level - 300;
}

const Reading& highest(const std::vector<Reading>& readings) {
  std::size_t best = 0;
  for (std::size_t i = 1; i < readings.size(); ++i) {
    if (readings[best].level < readings[i].level) {
      best = i;
    }
  }
  return readings[best];
}
