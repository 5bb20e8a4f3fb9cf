// The last four readings, in a ring: the newest one takes the place of the oldest.
#include <iostream>
#include <vector>
#include <gsl/span>

int sum(gsl::span<const int> ring) {
  int total = 0;
  for (std::size_t i = 0; i < ring.size(); ++i) {
    total += ring[i];
  }
  return total;
}

int main() {
  const std::size_t room = 4;
  std::vector<int> ring;
  ring.reserve(room);
  std::size_t head = 0;
  for (int i = 1; i <= 10; ++i) {
    int reading = i * i % 17;
    if (ring.size() < room) {
      ring.push_back(reading);
    } else {
      int& oldest = ring[head];
      std::cout << "drops " << oldest << std::endl;
      oldest = reading;
      head = (head + 1) % ring.size();
    }
  }
  std::cout << "oldest " << ring[head] << ", sum " << sum(ring) << std::endl;
  return sum(ring);
}
