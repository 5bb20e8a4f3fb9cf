// A baton is handed from one runner to the next: who has given it on has none.
#include <iostream>
#include <memory>

int main() {
  auto first = std::make_unique<int>(1);
  std::unique_ptr<int> second;
  std::unique_ptr<int> third;
  int metres = 0;
  *first += 99;
  metres += *first;
  second = std::move(first);
  *second += 50;
  metres += *second;
  third = std::move(second);
  *third += 25;
  metres += *third;
  if (first == nullptr && !second) {
    std::cout << "handed on, " << *third << " of " << metres << std::endl;
  }
  first = std::move(third);
  return *first;
}
