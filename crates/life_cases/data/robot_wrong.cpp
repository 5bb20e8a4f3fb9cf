// A robot that is told to go before it is told along which axis: the pointer to the member is null until then.
#include <iostream>
#include <string_view>

struct Position {
  int x;
  int y;
};

int distance(int from, int to) {
  if (from < to) {
    return to - from;
  }
  return from - to;
}

int main() {
  std::string_view letters = "ffyfffxbybbbbxfff";
  const Position start{2, -1};
  Position at = start;
  Position farthest = start;
  int* axis = nullptr;
  for (char letter : letters) {
    if (letter == 'x') {
      axis = &at.x;
    } else if (letter == 'y') {
      axis = &at.y;
    } else if (letter == 'f') {
      *axis += 1;
    } else {
      *axis -= 1;
    }
    int now = distance(start.x, at.x) + distance(start.y, at.y);
    if (now > distance(start.x, farthest.x) + distance(start.y, farthest.y)) {
      farthest = at;
    }
  }
  std::cout << at.x << ' ' << at.y << std::endl;
  std::cout << farthest.x << ' ' << farthest.y << std::endl;
  return 10 * distance(start.x, farthest.x) + distance(start.y, farthest.y);
}
