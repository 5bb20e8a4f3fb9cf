// The longest word of a line is told when the line has gained its full stop.
#include <iostream>
#include <string>
#include <string_view>

std::string_view longer(std::string_view a, std::string_view b) {
  if (b.size() > a.size()) {
    return b;
  }
  return a;
}

std::string_view first_word(std::string_view text) {
  std::size_t n = 0;
  while (n < text.size() && text[n] != ' ') {
    ++n;
  }
  return text.substr(0, n);
}

int main() {
  std::string line = "all good things come to an end";
  std::string_view rest = line;
  std::string_view longest;
  while (!rest.empty()) {
    std::string_view word = first_word(rest);
    longest = longer(longest, word);
    rest = rest.substr(word.size());
    if (!rest.empty()) {
      rest = rest.substr(1);
    }
  }
  line += '.';
  std::cout << line << std::endl;
  std::cout << longest << std::endl;
  return line.size();
}
