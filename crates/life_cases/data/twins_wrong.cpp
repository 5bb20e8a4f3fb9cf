// What was seen of a name before it changes places is a view, and the characters move along.
#include <iostream>
#include <string>
#include <string_view>

int main() {
  std::string left = "Castor";
  std::string right = "Pollux";
  std::string_view seen = left;
  for (int turn = 0; turn < 3; ++turn) {
    std::string kept = std::move(left);
    left = std::move(right);
    right = std::move(kept);
  }
  std::cout << left << ' ' << right << ", first " << seen << std::endl;
  if (seen == right) {
    return 1;
  }
  return 0;
}
