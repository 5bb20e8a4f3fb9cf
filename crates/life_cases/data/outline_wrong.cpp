// An outline whose span is from before a point was added: it names the points where they were.
#include <iostream>
#include <vector>
#include <gsl/span>

struct Point {
  int x;
  int y;
};

int between(int a, int b) {
  if (a < b) {
    return b - a;
  }
  return a - b;
}

int length(gsl::span<const Point> points) {
  int sum = 0;
  for (std::size_t i = 1; i < points.size(); ++i) {
    sum += between(points[i - 1].x, points[i].x) + between(points[i - 1].y, points[i].y);
  }
  return sum;
}

void shift(gsl::span<Point> points, int by) {
  for (Point& point : points) {
    point.x += by;
  }
}

int main() {
  std::vector<Point> outline;
  outline.push_back(Point{0, 0});
  outline.push_back(Point{4, 0});
  outline.push_back(Point{4, 3});
  gsl::span<Point> all = outline;
  std::cout << length(all) << std::endl;
  shift(all.subspan(1, 2), 2);
  outline.push_back(outline[0]);
  std::cout << length(all) << ' ' << outline[2].x << std::endl;
  return length(all.subspan(2, 2));
}
