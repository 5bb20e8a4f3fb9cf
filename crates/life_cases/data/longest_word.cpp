// The longest word of a line: each is compared with the longest so far, and a helper gives one of the two back.
#include <iostream>
#include <string>
#include <string_view>

std::string_view longer(std::string_view a, std::string_view b) {
  if (b.size() > a.size()) {
    return b;
  }
  return a;
}

std::string_view first_word(std::string_view text) {
  std::size_t n = 0;
  while (n < text.size() && text[n] != ' ') {
    ++n;
  }
  return text.substr(0, n);
}

int main() {
  std::string line = "all good things come to an end";
  std::string_view rest = line;
  std::string_view longest;
  while (!rest.empty()) {
    std::string_view word = first_word(rest);
    longest = longer(longest, word);
    rest = rest.substr(word.size());
    if (!rest.empty()) {
      rest = rest.substr(1);
    }
  }
  std::cout << longest << std::endl;
  line += '.';
  std::cout << line << std::endl;
  return line.size();
}
