// Prices are raised by a helper that keeps the list as it is: a reference to one of them stays good.
#include <iostream>
#include <vector>

void raise_all([[life::keeps]] std::vector<int>& prices, int by);

int sum(const std::vector<int>& prices) {
  int total = 0;
  for (int price : prices) {
    total += price;
  }
  return total;
}

int main() {
  std::vector<int> prices = {120, 80, 45};
  int& cheapest = prices[2];
  int before = sum(prices);
  raise_all(prices, 5);
  std::cout << before << " before, ";
  cheapest -= 10;
  std::cout << cheapest << " at least, " << sum(prices) << " now" << std::endl;
  return sum(prices);
}

void raise_all([[life::keeps]] std::vector<int>& prices, int by) {
  for (std::size_t i = 0; i < prices.size(); ++i) {
    prices[i] += by;
  }
}
