// Postfix terms over a stack, by helpers: one gives the place of the top back, one takes the top off.
#include <iostream>
#include <string_view>
#include <vector>

int& top([[life::keeps]] std::vector<int>& stack) {
  return stack.back();
}

int taken(std::vector<int>& stack) {
  int number = top(stack);
  stack.pop_back();
  return number;
}

int evaluate(std::string_view text) {
  std::vector<int> stack;
  for (std::size_t i = 0; i < text.size(); ++i) {
    char c = text[i];
    if (c >= '0' && c <= '9') {
      stack.push_back(c - '0');
    } else if (c == '+') {
      int right = taken(stack);
      top(stack) += right;
    } else if (c == '-') {
      int right = taken(stack);
      top(stack) -= right;
    } else if (c == '*') {
      int right = taken(stack);
      top(stack) *= right;
    }
  }
  return top(stack);
}

int main() {
  int first = evaluate("34+5*7-");
  int second = evaluate("92-3*4+");
  std::cout << first << ' ' << second << std::endl;
  return first + second;
}
