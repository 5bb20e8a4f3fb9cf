// A calculator with a stack: numbers are pushed, and a mark takes two numbers and pushes what it makes of them.
#include <cassert>
#include <iostream>
#include <string>
#include <string_view>
#include <vector>

bool is_digit(char c) {
  return '0' <= c && c <= '9';
}

long apply(char mark, long left, long right) {
  if (mark == '+') {
    return left + right;
  }
  if (mark == '-') {
    return left - right;
  }
  assert(mark == '*');
  return left * right;
}

int main() {
  std::string source = "3 4 + 5 * 17 -";
  std::string_view text = source;
  std::vector<long> stack;
  bool in_number = false;
  for (std::size_t i = 0; i < text.size(); ++i) {
    char c = text[i];
    if (is_digit(c)) {
      if (!in_number) {
        stack.push_back(0);
      }
      stack.back() = stack.back() * 10 + (c - '0');
    } else if (c != ' ') {
      long right = stack.back();
      stack.pop_back();
      long left = stack.back();
      stack.back() = apply(c, left, right);
      std::cout << left << ' ' << c << ' ' << right << " = " << stack.back() << std::endl;
    }
    in_number = is_digit(c);
  }
  assert(stack.size() == 1);
  return stack.back();
}
