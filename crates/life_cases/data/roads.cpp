// Towns are structs with their roads in vectors: the way to each is measured while the roads stay as they are.
#include <iostream>
#include <string>
#include <string_view>
#include <vector>

struct Town {
  std::string name;
  std::vector<int> roads;
  int distance;
};

void join(std::vector<Town>& towns, int a, int b) {
  towns[a].roads.push_back(b);
  towns[b].roads.push_back(a);
}

void measure(std::vector<Town>& towns, int from) {
  std::vector<int> reached = {from};
  towns[from].distance = 0;
  for (std::size_t i = 0; i < reached.size(); ++i) {
    const Town& town = towns[reached[i]];
    for (int next : town.roads) {
      Town& other = towns[next];
      if (other.distance == -1) {
        other.distance = town.distance + 1;
        reached.push_back(next);
      }
    }
  }
}

int main() {
  std::vector<Town> towns;
  std::string_view letters = "abcde";
  for (char letter : letters) {
    Town town;
    town.name.push_back(letter);
    town.distance = -1;
    towns.push_back(town);
  }
  join(towns, 0, 1);
  join(towns, 1, 2);
  join(towns, 0, 3);
  join(towns, 3, 2);
  join(towns, 2, 4);
  measure(towns, 0);
  int sum = 0;
  for (const Town& town : towns) {
    std::cout << town.name << town.distance << ' ';
    sum += town.distance;
  }
  std::cout << std::endl;
  return sum;
}
