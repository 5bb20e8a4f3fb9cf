// Where there is no mark the helper gives the mark itself back, against what its head says.
#include <iostream>
#include <string>
#include <string_view>

[[life::ret(text)]] std::string_view up_to(std::string_view text, std::string_view mark) {
  for (std::size_t i = 0; i + mark.size() <= text.size(); ++i) {
    if (text.substr(i, mark.size()) == mark) {
      return text.substr(0, i);
    }
  }
  return mark;
}

int main() {
  std::string record = "pear->fruit->food";
  std::string_view rest = record;
  std::string_view field;
  std::size_t longest = 0;
  {
    std::string mark = "-";
    mark += '>';
    while (!rest.empty()) {
      field = up_to(rest, mark);
      if (field.size() > longest) {
        longest = field.size();
      }
      rest = rest.substr(field.size());
      if (!rest.empty()) {
        rest = rest.substr(mark.size());
      }
    }
  }
  std::cout << "last is " << field << ", longest " << longest << std::endl;
  return longest;
}
