// A guest without a name is called by a word of the program: a helper gives the name back, or what is static.
#include <iostream>
#include <string>
#include <string_view>
#include <vector>

[[life::ret(name, static)]] std::string_view shown(const std::string& name) {
  if (name.empty()) {
    return "nobody";
  }
  return name;
}

int main() {
  std::vector<std::string> guests = {"Ada", "", "Grace"};
  std::string_view last;
  for (std::size_t i = 0; i < guests.size(); ++i) {
    last = shown(guests[i]);
    std::cout << last << ' ';
  }
  std::cout << std::endl;
  guests.push_back("Alan");
  last = shown(guests.back());
  std::cout << "last is " << last << std::endl;
  return last.size();
}
