// The letters of a word one by one: it is put together first, since a loop over a view keeps no argument alive.
#include <iostream>
#include <string>
#include <string_view>

std::string_view without_blanks(std::string_view text) {
  while (!text.empty() && text[0] == ' ') {
    text = text.substr(1);
  }
  while (!text.empty() && text[text.size() - 1] == ' ') {
    text = text.substr(0, text.size() - 1);
  }
  return text;
}

int main() {
  std::string word = "owl";
  int count = 0;
  std::string padded = "  " + word + "s ";
  for (char c : without_blanks(padded)) {
    std::cout << c << '-';
    ++count;
  }
  for (char c : word + "!") {
    std::cout << c;
  }
  std::cout << std::endl;
  return count;
}
