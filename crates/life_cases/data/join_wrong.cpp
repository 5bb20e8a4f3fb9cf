// A view is made of a string that is joined for it alone, and is gone when the line ends.
#include <iostream>
#include <string>
#include <string_view>

int count(std::string_view text, char c) {
  int n = 0;
  for (std::size_t i = 0; i < text.size(); ++i) {
    if (text[i] == c) {
      ++n;
    }
  }
  return n;
}

int main() {
  std::string first = "rice";
  std::string second = "salt, pepper";
  std::string_view field = second;
  if (count(field, ',') > 0) {
    field = '"' + second + '"';
  }
  std::string line = first + ",";
  line += field;
  std::cout << line << std::endl;
  return line.size();
}
