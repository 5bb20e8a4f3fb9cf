// Counters come to be when their letter first stands in the text, and one is kept by a pointer until the next one comes.
#include <iostream>
#include <string>
#include <string_view>
#include <vector>

int main() {
  std::string text = "mississippi";
  std::string letters;
  std::vector<int> counts;
  int* last = nullptr;
  for (std::size_t i = 0; i < text.size(); ++i) {
    std::size_t at = 0;
    while (at < letters.size() && letters[at] != text[i]) {
      ++at;
    }
    if (at == letters.size()) {
      letters.push_back(text[i]);
      counts.push_back(0);
    }
    ++counts[at];
    if (last != nullptr && *last > counts[at]) {
      std::cout << text[i] << " stands less often" << std::endl;
    }
    last = &counts[at];
  }
  return counts.size();
}
