// A row of notes is played there and back: a helper appends what it is given, which must not be the row itself.
#include <iostream>
#include <vector>
#include <gsl/span>

void append_back(std::vector<int>& row, gsl::span<const int> notes) {
  for (std::size_t i = notes.size(); i > 0; --i) {
    row.push_back(notes[i - 1]);
  }
}

int main() {
  std::vector<int> tune = {60, 64, 67};
  std::vector<int> copy = tune;
  append_back(tune, copy);
  gsl::span<const int> start = tune;
  append_back(copy, start.subspan(1, 2));
  for (int note : tune) {
    std::cout << note << ' ';
  }
  for (int note : copy) {
    std::cout << note << ' ';
  }
  std::cout << std::endl;
  return tune.size() + copy.size();
}
