// The newest reading is corrected through a reference that was taken before the ring had its room.
#include <iostream>
#include <vector>
#include <gsl/span>

int sum(gsl::span<const int> ring) {
  int total = 0;
  for (std::size_t i = 0; i < ring.size(); ++i) {
    total += ring[i];
  }
  return total;
}

int main() {
  const std::size_t room = 4;
  std::vector<int> ring = {1};
  int& newest = ring.back();
  ring.reserve(room);
  for (int i = 2; i <= 4; ++i) {
    ring.push_back(i * i % 17);
  }
  newest = 5;
  std::cout << "sum " << sum(ring) << std::endl;
  return sum(ring);
}
