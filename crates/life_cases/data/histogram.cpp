// How often each letter stands in a text, as lines of stars.
#include <iostream>
#include <string>
#include <string_view>
#include <vector>

bool is_letter(char c) {
  return 'a' <= c && c <= 'z';
}

int main() {
  std::string text = "a man, a plan, a canal";
  std::vector<int> counts;
  for (int i = 0; i < 26; ++i) {
    counts.push_back(0);
  }
  std::string_view letters = text;
  for (std::size_t i = 0; i < letters.size(); ++i) {
    if (is_letter(letters[i])) {
      int& count = counts[letters[i] - 'a'];
      ++count;
    }
  }
  int most = 0;
  for (std::size_t i = 0; i < counts.size(); ++i) {
    if (counts[i] > 0) {
      std::string stars;
      while (stars.size() < counts[i]) {
        stars.push_back('*');
      }
      char letter = 'a' + i;
      std::cout << letter << ' ' << stars << std::endl;
    }
    if (counts[i] > most) {
      most = counts[i];
    }
  }
  return most;
}
