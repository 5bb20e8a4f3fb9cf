// The first part is a view into what the helper gave back, which ends with the line.
#include <iostream>
#include <string>
#include <string_view>
#include <vector>

std::vector<std::string> split(std::string_view line, char mark) {
  std::vector<std::string> parts;
  std::string part;
  for (char c : line) {
    if (c == mark) {
      parts.push_back(std::move(part));
      part = "";
    } else {
      part += c;
    }
  }
  parts.push_back(std::move(part));
  return parts;
}

std::string joined(const std::vector<std::string>& parts, std::string_view mark) {
  std::string line;
  for (std::size_t i = 0; i < parts.size(); ++i) {
    if (i > 0) {
      line += mark;
    }
    line += parts[i];
  }
  return line;
}

int main() {
  std::vector<std::string> parts = split("pear,apple,plum", ',');
  std::string_view first = split("pear,apple,plum", ',').front();
  std::string line = joined(parts, " and ");
  std::cout << line << std::endl;
  std::cout << first << " of " << parts.size() << ", " << joined(split("a-b", '-'), "+").size() << std::endl;
  return line.size();
}
