// Words are put together letter by letter, and each is moved into the list when it is whole.
#include <iostream>
#include <string>
#include <vector>

int main() {
  std::string text = "one two three";
  std::vector<std::string> words;
  std::string word;
  for (char c : text) {
    if (c == ' ') {
      words.push_back(std::move(word));
      word = "";
    } else {
      word += c;
    }
  }
  words.push_back(std::move(word));
  for (const std::string& each : words) {
    std::cout << each << '/';
  }
  std::cout << std::endl;
  return words.size();
}
