// The last character of what is written is counted up by a reference to it, when the string has grown.
#include <iostream>
#include <string>
#include <string_view>

int main() {
  std::string text = "aaabccddddd";
  std::string packed = "a";
  packed += '0';
  char& digit = packed[1];
  for (std::size_t i = 0; i < text.size(); ++i) {
    if (text[i] != packed[packed.size() - 2]) {
      packed += text[i];
      packed += '0';
    }
    ++digit;
  }
  std::cout << packed << std::endl;
  return packed.size();
}
