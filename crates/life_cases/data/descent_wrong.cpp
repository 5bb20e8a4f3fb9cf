// The calculator's helper counts a fault through a pointer that may be null, and nobody counts the last text's.
#include <iostream>
#include <string_view>

long sum(std::string_view text, std::size_t& at, int* faults);

// The next character that isn't a blank, and 0 at the end.
char peek(std::string_view text, std::size_t& at) {
  while (at < text.size() && text[at] == ' ') {
    ++at;
  }
  if (at < text.size()) {
    return text[at];
  }
  return '\0';
}

void tell(int* faults) {
  ++*faults;
}

long factor(std::string_view text, std::size_t& at, int* faults) {
  char c = peek(text, at);
  if (c == '(') {
    ++at;
    long value = sum(text, at, faults);
    if (peek(text, at) == ')') {
      ++at;
    } else {
      tell(faults);
    }
    return value;
  }
  if (c < '0' || c > '9') {
    tell(faults);
    return 0;
  }
  long number = 0;
  while (at < text.size() && '0' <= text[at] && text[at] <= '9') {
    number = number * 10 + (text[at] - '0');
    ++at;
  }
  return number;
}

long product(std::string_view text, std::size_t& at, int* faults) {
  long value = factor(text, at, faults);
  while (peek(text, at) == '*') {
    ++at;
    value *= factor(text, at, faults);
  }
  return value;
}

long sum(std::string_view text, std::size_t& at, int* faults) {
  long value = product(text, at, faults);
  while (peek(text, at) == '+') {
    ++at;
    value += product(text, at, faults);
  }
  return value;
}

int main() {
  std::size_t at = 0;
  long whole = sum("2 * (3 + 4) + 5", at, nullptr);
  std::cout << whole << std::endl;
  int faults = 0;
  at = 0;
  long broken = sum("2 * (3 + ", at, nullptr);
  std::cout << broken << " with " << faults << " faults" << std::endl;
  return whole;
}
