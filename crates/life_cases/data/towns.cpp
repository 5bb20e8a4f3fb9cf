// The town nearest to a place: a helper goes over the towns by reference, and points at one of them.
#include <iostream>
#include <string>
#include <vector>

struct Point {
  int x;
  int y;
};

struct Town {
  std::string name;
  Point at;
};

int distance(const Point& from, const Point& to) {
  int x = from.x - to.x;
  int y = from.y - to.y;
  return x * x + y * y;
}

const Town* nearest(const std::vector<Town>& towns, const Point& at) {
  const Town* best = nullptr;
  for (const Town& town : towns) {
    if (best == nullptr || distance(town.at, at) < distance(best->at, at)) {
      best = &town;
    }
  }
  return best;
}

Town founded(std::string name, Point at) {
  Town town;
  town.name = std::move(name);
  town.at = at;
  return town;
}

int main() {
  std::vector<Town> towns;
  towns.push_back(founded("north", Point{0, 9}));
  towns.push_back(founded("west", Point{-4, 1}));
  towns.push_back(founded("port", Point{3, -2}));
  Point here{1, 1};
  int far = 0;
  const Town* town = nearest(towns, here);
  if (town) {
    far = distance(town->at, here);
    std::cout << town->name << ' ' << far << std::endl;
  }
  here = Point{-1, 6};
  town = nearest(towns, here);
  if (town) {
    std::cout << town->name << ' ' << distance(town->at, here) << std::endl;
  }
  return far;
}
