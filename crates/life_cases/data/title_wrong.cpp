// A title is overwritten by its own last word, which the helper takes by a view.
#include <iostream>
#include <string>
#include <string_view>

void overwrite(std::string& title, std::string_view by) {
  title.clear();
  title += by;
}

void capitalise([[life::keeps]] std::string& title) {
  if (!title.empty() && 'a' <= title[0] && title[0] <= 'z') {
    title[0] -= 'a' - 'A';
  }
}

int main() {
  std::string title = "the sign of four";
  std::string_view whole = title;
  std::string_view last = whole.substr(12);
  overwrite(title, last);
  capitalise(title);
  std::cout << title << std::endl;
  overwrite(title, "a study");
  capitalise(title);
  std::cout << title << std::endl;
  return title.size();
}
