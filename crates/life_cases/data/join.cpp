// A line of a table: fields are joined by commas, and one that holds a comma stands between quotes.
#include <iostream>
#include <string>
#include <string_view>

bool contains(std::string_view text, char c) {
  for (std::size_t i = 0; i < text.size(); ++i) {
    if (text[i] == c) {
      return true;
    }
  }
  return false;
}

std::string_view first_field(std::string_view fields) {
  std::size_t n = 0;
  while (n < fields.size() && fields[n] != '|') {
    ++n;
  }
  return fields.substr(0, n);
}

int main() {
  std::string_view fields = "rice|salt, pepper|oil";
  std::string line;
  while (!fields.empty()) {
    std::string_view field = first_field(fields);
    if (!line.empty()) {
      line += ',';
    }
    if (contains(field, ',')) {
      line += '"';
      line += field;
      line += '"';
    } else {
      line += field;
    }
    fields = fields.substr(field.size());
    if (!fields.empty()) {
      fields = fields.substr(1);
    }
  }
  std::cout << line << std::endl;
  return line.size();
}
