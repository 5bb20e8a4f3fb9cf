// A ticket is given to each who asks: the second time there is none, and the first one is lost.
#include <iostream>
#include <memory>
#include <vector>

int main() {
  auto ticket = std::make_unique<int>(17);
  std::unique_ptr<int> given;
  std::vector<int> asks = {0, 1, 0, 1};
  int refused = 0;
  for (int ask : asks) {
    if (ask == 1) {
      given = std::move(ticket);
      ++refused;
    }
  }
  std::cout << "ticket " << *given << ", asked " << refused << std::endl;
  if (ticket) {
    return *ticket;
  }
  return refused;
}
