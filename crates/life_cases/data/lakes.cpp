// The lakes of a map are counted: each is filled by a helper that calls itself, and that keeps the map's rows.
#include <iostream>
#include <string>
#include <vector>

void fill([[life::keeps]] std::vector<std::string>& map, std::size_t row, std::size_t column) {
  if (row >= map.size() || column >= map[row].size() || map[row][column] != '~') {
    return;
  }
  map[row][column] = '.';
  fill(map, row + 1, column);
  fill(map, row, column + 1);
  if (row > 0) {
    fill(map, row - 1, column);
  }
  if (column > 0) {
    fill(map, row, column - 1);
  }
}

int main() {
  std::vector<std::string> map = {"..~~~", ".~~..", "....~", "~..~~"};
  char& corner = map[0][0];
  int lakes = 0;
  for (std::size_t row = 0; row < map.size(); ++row) {
    for (std::size_t column = 0; column < map[row].size(); ++column) {
      if (map[row][column] == '~') {
        ++lakes;
        fill(map, row, column);
      }
    }
  }
  corner = '#';
  for (const std::string& row : map) {
    std::cout << row << std::endl;
  }
  return lakes;
}
