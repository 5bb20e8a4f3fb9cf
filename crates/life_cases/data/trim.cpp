// Blanks before and behind a text are left out: what is given back is a part of what was handed over.
#include <iostream>
#include <string>
#include <string_view>

bool is_blank(char c) {
  return c == ' ' || c == '\t';
}

std::string_view trimmed(std::string_view text) {
  std::size_t begin = 0;
  while (begin < text.size() && is_blank(text[begin])) {
    ++begin;
  }
  std::size_t end = text.size();
  while (end > begin && is_blank(text[end - 1])) {
    --end;
  }
  return text.substr(begin, end - begin);
}

int main() {
  std::string line = "\t name = value with blanks  ";
  std::string_view text = line;
  std::size_t equals = 0;
  while (text[equals] != '=') {
    ++equals;
  }
  std::string_view name = trimmed(text.substr(0, equals));
  std::string_view value = trimmed(text.substr(equals + 1));
  std::cout << '[' << name << "] [" << value << ']' << std::endl;
  return value.size();
}
