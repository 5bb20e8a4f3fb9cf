// Votes are counted: one helper gives the place of a name's count, or null, and another adds a name.
#include <iostream>
#include <string>
#include <string_view>
#include <vector>

int* votes_of(const std::vector<std::string>& names, [[life::keeps]] std::vector<int>& votes, std::string_view name) {
  for (std::size_t i = 0; i < names.size(); ++i) {
    if (names[i] == name) {
      return &votes[i];
    }
  }
  return nullptr;
}

void add(std::vector<std::string>& names, std::vector<int>& votes, std::string_view name) {
  names.push_back(std::string(name));
  votes.push_back(1);
}

int main() {
  std::vector<std::string> ballots = {"Bo", "Ann", "Cy", "Bo", "Ann"};
  std::vector<std::string> names;
  std::vector<int> votes;
  add(names, votes, "Ann");
  for (const std::string& ballot : ballots) {
    int* found = votes_of(names, votes, ballot);
    if (found) {
      ++*found;
    } else {
      add(names, votes, ballot);
    }
  }
  for (std::size_t i = 0; i < names.size(); ++i) {
    std::cout << names[i] << ' ' << votes[i] << std::endl;
  }
  int* ann = votes_of(names, votes, "Ann");
  if (ann != nullptr) {
    return *ann;
  }
  return 0;
}
