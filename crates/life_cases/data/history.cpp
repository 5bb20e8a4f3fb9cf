// The last entry of a history, or what is to be shown where there is none: a helper gives back one of the two.
#include <iostream>
#include <string>
#include <vector>

const std::string& last_or(const std::vector<std::string>& history, const std::string& other) {
  if (history.empty()) {
    return other;
  }
  return history.back();
}

int main() {
  std::vector<std::string> history;
  std::string nothing = "nothing yet";
  const std::string& shown = last_or(history, nothing);
  std::cout << shown << std::endl;
  history.push_back("open");
  history.push_back("edit");
  std::cout << last_or(history, nothing) << std::endl;
  return last_or(history, "none").size() + nothing.size();
}
