// The longest word is kept as a view while the text gets one word more.
#include <iostream>
#include <string>
#include <string_view>
#include <vector>

std::size_t word_length(std::string_view text) {
  std::size_t n = 0;
  while (n < text.size() && text[n] != ' ') {
    ++n;
  }
  return n;
}

int main() {
  std::string text = "the cat and the dog";
  std::string_view longest;
  std::vector<std::size_t> begins;
  std::size_t at = 0;
  while (at < text.size()) {
    std::string_view rest = text;
    rest = rest.substr(at);
    std::size_t n = word_length(rest);
    if (n > longest.size()) {
      longest = rest.substr(0, n);
    }
    begins.push_back(at);
    at += n + 1;
  }
  text.push_back('s');
  std::cout << longest << std::endl;
  return begins.size();
}
