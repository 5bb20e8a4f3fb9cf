// The seconds of the longest lap are named in the lap itself, which ends with its turn, and not in the copy that stays.
#include <iostream>
#include <vector>

struct Time {
  int hours;
  int minutes;
  int seconds;
};

// What doesn't fit below the base goes into the next unit.
void carry(int& unit, int& next, int base) {
  next += unit / base;
  unit %= base;
}

int main() {
  std::vector<int> laps = {3599, 75, 4000, 61};
  Time total{};
  Time longest{};
  const int* seconds = &longest.seconds;
  int most = 0;
  for (std::size_t i = 0; i < laps.size(); ++i) {
    Time lap{0, 0, laps[i]};
    total.seconds += lap.seconds;
    carry(total.seconds, total.minutes, 60);
    carry(total.minutes, total.hours, 60);
    carry(lap.seconds, lap.minutes, 60);
    carry(lap.minutes, lap.hours, 60);
    std::cout << lap.hours << ':' << lap.minutes << ':' << lap.seconds << ' ';
    if (laps[i] > most) {
      most = laps[i];
      longest = lap;
      seconds = &lap.seconds;
    }
  }
  std::cout << std::endl;
  std::cout << "total " << total.hours << ':' << total.minutes << ':' << total.seconds << std::endl;
  std::cout << "longest " << longest.hours << ':' << longest.minutes << ':' << *seconds << std::endl;
  return *seconds;
}
