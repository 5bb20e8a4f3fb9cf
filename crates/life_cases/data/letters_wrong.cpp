// The longest of some lines is kept as a view, and each line is a temporary that lives for one turn of the loop.
#include <iostream>
#include <string>
#include <string_view>
#include <vector>

int main() {
  std::vector<std::string> names = {"Ada", "Grace", "Alan"};
  std::string_view longest;
  for (const std::string& name : names) {
    const std::string& line = "dear " + name + ",";
    if (longest.size() < line.size()) {
      longest = line;
    }
    std::cout << line << ' ';
  }
  std::cout << std::endl;
  std::cout << longest << std::endl;
  return longest.size();
}
