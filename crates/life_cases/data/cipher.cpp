// A text is turned by 13 letters, letter by letter in its place, and back.
#include <iostream>
#include <string>
#include <string_view>

char turned(char c) {
  if ('a' <= c && c <= 'z') {
    return 'a' + (c - 'a' + 13) % 26;
  }
  if ('A' <= c && c <= 'Z') {
    return 'A' + (c - 'A' + 13) % 26;
  }
  return c;
}

int letters(std::string_view text) {
  int count = 0;
  for (std::size_t i = 0; i < text.size(); ++i) {
    if (turned(text[i]) != text[i]) {
      ++count;
    }
  }
  return count;
}

int main() {
  std::string text = "Hello, World!";
  const std::string before = text;
  for (std::size_t i = 0; i < text.size(); ++i) {
    text[i] = turned(text[i]);
  }
  std::cout << text << std::endl;
  std::string back;
  for (std::size_t i = 0; i < text.size(); ++i) {
    back += turned(text[i]);
  }
  if (back != before) {
    return 0;
  }
  return letters(text);
}
