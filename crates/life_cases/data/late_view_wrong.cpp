// What stands behind the colon is a part of a temporary, which ends with its line.
#include <iostream>
#include <string>
#include <string_view>

std::string_view behind(std::string_view text, char mark) {
  std::size_t i = 0;
  while (i < text.size() && text[i] != mark) {
    ++i;
  }
  if (i == text.size()) {
    return "";
  }
  return text.substr(i + 1);
}

int main() {
  std::string key = "size";
  std::string number = "12";
  std::string_view value = behind(key + ':' + number + " pages", ':');
  std::cout << value << std::endl;
  std::cout << behind(key + ": none", ':') << std::endl;
  return value.size();
}
