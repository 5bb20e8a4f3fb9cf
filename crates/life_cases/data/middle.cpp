// The middle of some readings, by a helper that is given a copy and takes the least and the largest out of it by turns.
#include <iostream>
#include <vector>

void take(std::vector<int>& readings, bool least) {
  auto found = readings.begin();
  for (auto it = readings.begin(); it != readings.end(); ++it) {
    if (least && *it < *found || !least && *it > *found) {
      found = it;
    }
  }
  readings.erase(found);
}

int middle(std::vector<int> readings) {
  bool least = true;
  while (readings.size() > 1) {
    take(readings, least);
    least = !least;
  }
  return readings.front();
}

int main() {
  std::vector<int> readings = {31, 4, 15, 9, 26, 5, 35};
  std::cout << middle(readings) << " of " << readings.size() << std::endl;
  readings.push_back(1);
  readings.push_back(2);
  std::cout << middle(readings) << " of " << readings.size() << std::endl;
  return middle(readings);
}
