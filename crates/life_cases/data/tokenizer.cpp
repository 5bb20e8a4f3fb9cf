// A sum that is read token by token: numbers, and the marks + and - between them.
#include <iostream>
#include <string>
#include <string_view>

bool is_digit(char c) {
  return '0' <= c && c <= '9';
}

std::string_view without_blanks(std::string_view text) {
  std::size_t i = 0;
  while (i < text.size() && text[i] == ' ') {
    ++i;
  }
  return text.substr(i);
}

// The digits of a number, or one mark.
std::string_view first_token(std::string_view text) {
  std::size_t n = 0;
  while (n < text.size() && is_digit(text[n])) {
    ++n;
  }
  if (n == 0) {
    n = 1;
  }
  return text.substr(0, n);
}

long number(std::string_view digits) {
  long n = 0;
  for (std::size_t i = 0; i < digits.size(); ++i) {
    n = n * 10 + (digits[i] - '0');
  }
  return n;
}

int main() {
  std::string source = " 12 + 300 -7  +  8";
  std::string_view rest = without_blanks(source);
  long total = 0;
  bool adds = true;
  while (!rest.empty()) {
    std::string_view token = first_token(rest);
    if (!is_digit(token[0])) {
      adds = token == "+";
    } else if (adds) {
      total += number(token);
    } else {
      total -= number(token);
    }
    rest = without_blanks(rest.substr(token.size()));
  }
  source += " is ";
  std::cout << source << total << std::endl;
  return total;
}
