// A text that keeps a view of its own first word has changed, and its view is what it was.
#include <iostream>
#include <string>
#include <string_view>

struct Text {
  std::string whole;
  std::string_view first;
};

std::string_view first_word(std::string_view text) {
  std::size_t n = 0;
  while (n < text.size() && text[n] != ' ') {
    ++n;
  }
  return text.substr(0, n);
}

int main() {
  Text text;
  text.whole = "short words";
  text.first = first_word(text.whole);
  std::cout << text.first << std::endl;
  text.whole += " are good";
  std::cout << text.first << " of " << text.whole.size() << std::endl;
  return text.first.size();
}
