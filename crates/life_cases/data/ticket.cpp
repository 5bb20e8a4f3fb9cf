// A ticket is given to the first who asks, and nobody else gets one.
#include <iostream>
#include <memory>
#include <vector>

int main() {
  auto ticket = std::make_unique<int>(17);
  std::unique_ptr<int> given;
  std::vector<int> asks = {0, 1, 0, 1};
  int refused = 0;
  for (int ask : asks) {
    if (ask == 1) {
      if (ticket) {
        given = std::move(ticket);
      } else {
        ++refused;
      }
    }
  }
  if (given) {
    std::cout << "ticket " << *given << ", refused " << refused << std::endl;
  }
  if (ticket) {
    return *ticket;
  }
  return refused;
}
