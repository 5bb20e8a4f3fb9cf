// Numbers are written on a page, and a new one is made when it is full: what was seen of the old one is a copy.
#include <iostream>
#include <memory>
#include <vector>

int main() {
  auto page = std::make_unique<std::vector<int>>();
  int pages = 1;
  int last = 0;
  for (int number = 1; number <= 8; ++number) {
    if (page->size() == 3) {
      std::cout << "page " << pages << " ends with " << last << std::endl;
      page = std::make_unique<std::vector<int>>();
      ++pages;
    }
    page->push_back(number * number);
    last = page->back();
  }
  std::cout << "page " << pages << " has " << page->size() << ", last " << last << std::endl;
  return pages;
}
