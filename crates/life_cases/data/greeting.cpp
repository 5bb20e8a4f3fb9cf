// A greeting is made by a helper: its string is kept by name, and bound to a reference for as long as this stands.
#include <iostream>
#include <string>
#include <string_view>

std::string greeting(std::string name, bool loud) {
  if (name.empty()) {
    return "hello";
  }
  name = "hello " + name;
  if (loud) {
    name += '!';
  }
  return name;
}

int main() {
  std::string made = greeting("Grace", true);
  const std::string& bound = greeting("Alan", false);
  std::string_view seen = bound;
  std::cout << made << ' ' << seen << ' ' << greeting("", true) << std::endl;
  std::string_view start = seen.substr(0, 5);
  if (start == greeting("", false)) {
    return made.size();
  }
  return 0;
}
