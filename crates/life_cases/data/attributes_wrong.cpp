// An attribute that is for raw pointers stands before a reference, which is never null anyway.
#include <iostream>
#include <vector>

[[nodiscard]] [[life::ret(low, high)]] int& nearer(int& low, int& high, [[gnu::unused]] const int& goal);

[[life::ret(list, null)]] int* first_of([[life::keeps]] std::vector<int>& list, [[life::nonnull]] int& length) {
  length = list.size();
  if (list.empty()) {
    return nullptr;
  }
  return &list.front();
}

int main() {
  std::vector<int> list = {3, 40};
  int length = 0;
  int& near = nearer(list.front(), list.back(), 30);
  near += 2;
  int* first = first_of(list, length);
  if (first) {
    *first = length;
  }
  std::cout << list[0] << ' ' << near << std::endl;
  return near;
}

[[nodiscard]] [[life::ret(low, high)]] int& nearer(int& low, int& high, [[gnu::unused]] const int& goal) {
  if (goal - low < high - goal) {
    return low;
  }
  return high;
}
