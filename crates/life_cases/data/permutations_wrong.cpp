// The helper doesn't say that it keeps the row, so a reference may not be used behind its call of itself.
#include <iostream>
#include <vector>

void exchange(char& a, char& b) {
  char kept = a;
  a = b;
  b = kept;
}

void print(const std::vector<char>& letters) {
  for (char letter : letters) {
    std::cout << letter;
  }
  std::cout << ' ';
}

void permute(std::vector<char>& letters, std::size_t from, int& count) {
  if (from == letters.size()) {
    ++count;
    if (count % 6 == 0) {
      print(letters);
    }
    return;
  }
  char& first = letters[from];
  for (std::size_t i = from; i < letters.size(); ++i) {
    exchange(first, letters[i]);
    permute(letters, from + 1, count);
    exchange(first, letters[i]);
  }
}

int main() {
  std::vector<char> letters = {'a', 'b', 'c', 'd'};
  int count = 0;
  permute(letters, 0, count);
  std::cout << std::endl;
  return count;
}
