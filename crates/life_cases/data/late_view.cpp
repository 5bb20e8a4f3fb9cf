// A line is put together from its parts, and what stands behind the colon is shown while the line is there.
#include <iostream>
#include <string>
#include <string_view>

std::string_view behind(std::string_view text, char mark) {
  std::size_t i = 0;
  while (i < text.size() && text[i] != mark) {
    ++i;
  }
  if (i == text.size()) {
    return "";
  }
  return text.substr(i + 1);
}

int main() {
  std::string key = "size";
  std::string number = "12";
  std::string line = key + ':' + number + " pages";
  std::string_view value = behind(line, ':');
  std::cout << value << std::endl;
  std::cout << behind(key + ": none", ':') << std::endl;
  return value.size();
}
