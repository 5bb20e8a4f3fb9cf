// An inventory of structs in a vector: a helper finds an item by its name, and is asked again once the vector grew.
#include <iostream>
#include <string>
#include <string_view>
#include <vector>

struct Item {
  std::string name;
  int count;
};

Item* find([[life::keeps]] std::vector<Item>& items, std::string_view name) {
  for (Item& item : items) {
    if (item.name == name) {
      return &item;
    }
  }
  return nullptr;
}

void add(std::vector<Item>& items, std::string_view name, int count) {
  Item* known = find(items, name);
  if (known) {
    known->count += count;
  } else {
    Item item;
    item.name = std::string(name);
    item.count = count;
    items.push_back(item);
  }
}

int main() {
  std::vector<Item> items;
  add(items, "bolt", 40);
  add(items, "nut", 25);
  add(items, "bolt", 2);
  int before = 0;
  Item* bolt = find(items, "bolt");
  if (bolt) {
    before = bolt->count;
  }
  add(items, "washer", 60);
  bolt = find(items, "bolt");
  if (bolt) {
    bolt->count -= 12;
    std::cout << bolt->name << ' ' << before << " -> " << bolt->count << std::endl;
  }
  int sum = 0;
  for (const Item& item : items) {
    std::cout << item.name << ' ';
    sum += item.count;
  }
  std::cout << std::endl;
  return sum;
}
