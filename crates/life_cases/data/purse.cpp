// A purse is made by one helper, which may give none, and taken by another, which spends it.
#include <iostream>
#include <memory>

std::unique_ptr<int> filled(int coins) {
  if (coins <= 0) {
    return nullptr;
  }
  auto purse = std::make_unique<int>(coins);
  *purse += 1;
  return purse;
}

int spent(std::unique_ptr<int> purse) {
  if (purse) {
    return *purse;
  }
  return 0;
}

int main() {
  auto purse = filled(41);
  auto empty = filled(-3);
  if (empty == nullptr && purse != nullptr) {
    std::cout << *purse << " coins" << std::endl;
  }
  int total = spent(std::move(purse)) + spent(std::move(empty)) + spent(filled(7));
  if (!purse) {
    std::cout << "all spent: " << total << std::endl;
  }
  return total;
}
