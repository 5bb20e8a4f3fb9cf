// An index of the words of a text: where each begins and how long it is. Each word is told once, with how often it stands.
#include <iostream>
#include <string>
#include <string_view>
#include <vector>

std::size_t word_length(std::string_view text) {
  std::size_t n = 0;
  while (n < text.size() && text[n] != ' ') {
    ++n;
  }
  return n;
}

int main() {
  std::string text = "the cat and the dog";
  text += " and the bird";
  std::string_view all = text;
  std::vector<std::size_t> begins;
  std::vector<std::size_t> lengths;
  std::size_t at = 0;
  while (at < all.size()) {
    std::size_t n = word_length(all.substr(at));
    if (n > 0) {
      begins.push_back(at);
      lengths.push_back(n);
    }
    at += n + 1;
  }
  int different = 0;
  for (std::size_t i = 0; i < begins.size(); ++i) {
    std::string_view word = all.substr(begins[i], lengths[i]);
    int before = 0;
    int count = 0;
    for (std::size_t j = 0; j < begins.size(); ++j) {
      if (all.substr(begins[j], lengths[j]) == word) {
        ++count;
        if (j < i) {
          ++before;
        }
      }
    }
    if (before == 0) {
      std::cout << word << ' ' << count << std::endl;
      ++different;
    }
  }
  return different;
}
