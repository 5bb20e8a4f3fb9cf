// A word that was moved into the list gains the letters of the next one.
#include <iostream>
#include <string>
#include <vector>

int main() {
  std::string text = "one two three";
  std::vector<std::string> words;
  std::string word;
  for (char c : text) {
    if (c == ' ') {
      words.push_back(std::move(word));
    } else {
      word += c;
    }
  }
  words.push_back(std::move(word));
  for (const std::string& each : words) {
    std::cout << each << '/';
  }
  std::cout << std::endl;
  return words.size();
}
