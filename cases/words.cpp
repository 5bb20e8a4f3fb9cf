// Splits a text at its blanks, adds up its numbers, and prints the other words.
bool is_blank(char c) {
  return c == ' ' || c == '\t';
}

bool is_digit(char c) {
  return '0' <= c && c <= '9';
}

std::string_view without_blanks(std::string_view text) {
  std::size_t i = 0;
  while (i < text.size() && is_blank(text[i])) {
    ++i;
  }
  return text.substr(i);
}

std::string_view first_word(std::string_view text) {
  std::size_t n = 0;
  while (n < text.size() && !is_blank(text[n])) {
    ++n;
  }
  return text.substr(0, n);
}

bool is_number(std::string_view word) {
  for (std::size_t i = 0; i < word.size(); ++i) {
    if (!is_digit(word[i])) {
      return false;
    }
  }
  return !word.empty();
}

int number(std::string_view word) {
  int n = 0;
  for (std::size_t i = 0; i < word.size(); ++i) {
    n = n * 10 + (word[i] - '0');
  }
  return n;
}

int sum(std::string_view text) {
  int total = 0;
  std::string_view rest = without_blanks(text);
  while (!rest.empty()) {
    std::string_view word = first_word(rest);
    if (is_number(word)) {
      total += number(word);
    } else if (word != "and") {
      std::cout << '[' << word << ']' << std::endl;
    }
    rest = without_blanks(rest.substr(word.size()));
  }
  return total;
}

int main() {
  return sum("  12 apples and 30\tpears ");
}
