// The helper's head says that all it gives back is static, and a guest's name isn't: so main keeps one for too long.
#include <iostream>
#include <string>
#include <string_view>
#include <vector>

[[life::ret(static)]] std::string_view shown(const std::string& name) {
  if (name.empty()) {
    return "nobody";
  }
  return name;
}

int main() {
  std::vector<std::string> guests = {"Ada", "", "Grace"};
  std::string_view last;
  for (std::size_t i = 0; i < guests.size(); ++i) {
    last = shown(guests[i]);
    std::cout << last << ' ';
  }
  std::cout << std::endl;
  guests.push_back("Alan");
  std::cout << "last is " << last << std::endl;
  return last.size();
}
