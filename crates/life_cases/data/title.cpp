// A title is overwritten by a helper, which takes the new one by a view: never by a view of the title itself.
#include <iostream>
#include <string>
#include <string_view>

void overwrite(std::string& title, std::string_view by) {
  title.clear();
  title += by;
}

void capitalise([[life::keeps]] std::string& title) {
  if (!title.empty() && 'a' <= title[0] && title[0] <= 'z') {
    title[0] -= 'a' - 'A';
  }
}

int main() {
  std::string title = "the sign of four";
  std::string_view whole = title;
  std::string last = std::string(whole.substr(12));
  overwrite(title, last);
  capitalise(title);
  std::cout << title << std::endl;
  overwrite(title, "a study");
  capitalise(title);
  std::cout << title << std::endl;
  return title.size();
}
