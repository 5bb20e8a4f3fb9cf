// The text without its blanks is copied into a string of the function's own, and a view of that is given back.
#include <iostream>
#include <string>
#include <string_view>

std::string_view without_blanks(std::string_view text) {
  std::string kept;
  for (std::size_t i = 0; i < text.size(); ++i) {
    if (text[i] != ' ') {
      kept += text[i];
    }
  }
  std::string_view all = kept;
  return all;
}

int main() {
  std::string line = " a b  c ";
  std::string_view short_line = without_blanks(line);
  std::cout << short_line << std::endl;
  return short_line.size();
}
