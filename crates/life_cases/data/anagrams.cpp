// Words are compared by their sorted letters: the helper that sorts is given a copy, so the words stay as they are.
#include <iostream>
#include <string>
#include <vector>

// A number that all words of the same letters share.
long signature(std::string word) {
  for (std::size_t i = 0; i < word.size(); ++i) {
    std::size_t least = i;
    for (std::size_t j = i + 1; j < word.size(); ++j) {
      if (word[j] < word[least]) {
        least = j;
      }
    }
    char kept = word[i];
    word[i] = word[least];
    word[least] = kept;
  }
  long number = 7;
  for (char c : word) {
    number = (number * 31 + c) % 1000003;
  }
  return number;
}

int main() {
  std::vector<std::string> words = {"listen", "silent", "enlist", "tinsel", "inlets", "stone", "onset"};
  int pairs = 0;
  for (std::size_t i = 0; i + 1 < words.size(); ++i) {
    if (signature(words[i]) == signature(words[i + 1])) {
      std::cout << words[i] << '=' << words[i + 1] << ' ';
      ++pairs;
    }
  }
  std::cout << std::endl;
  return pairs;
}
