// A text with its runs told by their lengths, and back again.
#include <iostream>
#include <string>
#include <string_view>

// How many characters at the beginning are equal.
std::size_t run_length(std::string_view text) {
  std::size_t n = 0;
  while (n < text.size() && text[n] == text[0]) {
    ++n;
  }
  return n;
}

int main() {
  std::string text = "aaabccddddd";
  std::string packed;
  std::string_view rest = text;
  while (!rest.empty()) {
    std::size_t n = run_length(rest);
    char digit = '0' + n;
    packed += rest[0];
    packed += digit;
    rest = rest.substr(n);
  }
  std::string unpacked;
  for (std::size_t i = 0; i + 1 < packed.size(); i += 2) {
    for (int n = packed[i + 1] - '0'; n > 0; --n) {
      unpacked += packed[i];
    }
  }
  std::cout << text << ' ' << packed << ' ' << unpacked << std::endl;
  if (unpacked == text) {
    return packed.size();
  }
  return 0;
}
