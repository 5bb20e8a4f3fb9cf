// A file of many forms of the grammar, in which three things are wrong.
struct Word {
  std::string text;
  int count;
};

[[life::ret(words)]] const Word* most(const std::vector<Word>& words) {
  const Word* best = nullptr;
  for (const Word& word : words) {
    if (!best || best->count < word.count) {
      best = &word;
    }
  }
  return best;
}

int main() {
  std::vector<Word> words = {Word{"one", 1}, Word{"two", 2}};
  const Word* best = most(words);
  words.push_back(Word{"three", 3});
  std::cout << best->text << std::endl;
  return 0;
}
