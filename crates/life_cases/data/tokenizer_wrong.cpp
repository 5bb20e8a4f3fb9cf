// The last token is told after the text that it is a part of has grown.
#include <iostream>
#include <string>
#include <string_view>

bool is_digit(char c) {
  return '0' <= c && c <= '9';
}

std::string_view without_blanks(std::string_view text) {
  std::size_t i = 0;
  while (i < text.size() && text[i] == ' ') {
    ++i;
  }
  return text.substr(i);
}

// The digits of a number, or one mark.
std::string_view first_token(std::string_view text) {
  std::size_t n = 0;
  while (n < text.size() && is_digit(text[n])) {
    ++n;
  }
  if (n == 0) {
    n = 1;
  }
  return text.substr(0, n);
}

int main() {
  std::string source = " 12 + 300 -7  +  8";
  std::string_view rest = without_blanks(source);
  std::string_view last;
  int count = 0;
  while (!rest.empty()) {
    last = first_token(rest);
    rest = without_blanks(rest.substr(last.size()));
    ++count;
  }
  source += " ends with ";
  std::cout << source << last << std::endl;
  return count;
}
