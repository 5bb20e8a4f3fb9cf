// A greeting is made by a helper, and seen through a view of it when it is gone.
#include <iostream>
#include <string>
#include <string_view>

std::string greeting(std::string name, bool loud) {
  if (name.empty()) {
    return "hello";
  }
  name = "hello " + name;
  if (loud) {
    name += '!';
  }
  return name;
}

int main() {
  std::string made = greeting("Grace", true);
  std::string_view seen = greeting("Alan", false);
  std::cout << made << ' ' << seen << ' ' << greeting("", true) << std::endl;
  std::string_view start = seen.substr(0, 5);
  if (start == greeting("", false)) {
    return made.size();
  }
  return 0;
}
