// Text and key are seen by views; a key that is too short is repeated, which makes another text of it.
#include <iostream>
#include <string>
#include <string_view>

char turned(char c, char by) {
  return 'a' + (c - 'a' + (by - 'a')) % 26;
}

int main() {
  std::string text = "attackatdawn";
  std::string key = "lemon";
  std::string_view turns = key;
  while (key.size() < text.size()) {
    key += key;
  }
  for (std::size_t i = 0; i < text.size(); ++i) {
    text[i] = turned(text[i], turns[i]);
  }
  std::cout << text << std::endl;
  return text.size();
}
