// The helper that raises prices puts the rise itself at the end of the list, and a reference into that was kept.
#include <iostream>
#include <vector>

void raise_all(std::vector<int>& prices, int by);

int sum(const std::vector<int>& prices) {
  int total = 0;
  for (int price : prices) {
    total += price;
  }
  return total;
}

int main() {
  std::vector<int> prices = {120, 80, 45};
  int& cheapest = prices[2];
  int before = sum(prices);
  raise_all(prices, 5);
  std::cout << before << " before, ";
  cheapest -= 10;
  std::cout << cheapest << " at least, " << sum(prices) << " now" << std::endl;
  return sum(prices);
}

void raise_all(std::vector<int>& prices, int by) {
  for (std::size_t i = 0; i < prices.size(); ++i) {
    prices[i] += by;
  }
  prices.push_back(by);
}
