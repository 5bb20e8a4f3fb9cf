// The right number is named by a reference into the stack, and used when it has been popped.
#include <cassert>
#include <iostream>
#include <string>
#include <string_view>
#include <vector>

bool is_digit(char c) {
  return '0' <= c && c <= '9';
}

int main() {
  std::string source = "3 4 + 5 + 17 +";
  std::string_view text = source;
  std::vector<long> stack;
  bool in_number = false;
  for (std::size_t i = 0; i < text.size(); ++i) {
    char c = text[i];
    if (is_digit(c)) {
      if (!in_number) {
        stack.push_back(0);
      }
      stack.back() = stack.back() * 10 + (c - '0');
    } else if (c == '+') {
      long& right = stack.back();
      stack.pop_back();
      stack.back() += right;
      std::cout << "sum " << stack.back() << std::endl;
    }
    in_number = is_digit(c);
  }
  assert(stack.size() == 1);
  return stack.back();
}
