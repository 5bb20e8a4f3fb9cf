// A lexer whose tokens are structs of a kind and a view: the longest token stays as a copy while the others go by.
#include <iostream>
#include <string>
#include <string_view>

struct Token {
  char kind;
  std::string_view text;
};

bool is_digit(char c) {
  return c >= '0' && c <= '9';
}

bool is_letter(char c) {
  return c >= 'a' && c <= 'z';
}

int main() {
  std::string source = "let x1 = 42 + y;";
  std::string_view rest = source;
  Token token;
  Token longest{'?', ""};
  int count = 0;
  while (!rest.empty()) {
    std::size_t n = 1;
    token.kind = 'm';
    if (rest[0] == ' ') {
      token.kind = ' ';
    } else if (is_digit(rest[0])) {
      token.kind = 'n';
      while (n < rest.size() && is_digit(rest[n])) {
        ++n;
      }
    } else if (is_letter(rest[0])) {
      token.kind = 'w';
      while (n < rest.size() && (is_letter(rest[n]) || is_digit(rest[n]))) {
        ++n;
      }
    }
    token.text = rest.substr(0, n);
    rest = rest.substr(n);
    if (token.kind != ' ') {
      std::cout << token.kind << '[' << token.text << ']';
      ++count;
      if (token.text.size() > longest.text.size()) {
        longest = token;
      }
    }
  }
  std::cout << std::endl;
  std::cout << longest.kind << ' ' << longest.text << std::endl;
  return 10 * count + longest.text.size();
}
