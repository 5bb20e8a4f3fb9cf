// A parcel whose label is read once more after it was handed over: the text ended with the one who opened it.
#include <iostream>
#include <memory>
#include <string>
#include <string_view>

std::unique_ptr<std::string> wrapped(std::string text) {
  return std::make_unique<std::string>(std::move(text));
}

void stamp(std::string& text) {
  text += '!';
}

std::string opened(std::unique_ptr<std::string> parcel) {
  if (parcel) {
    return *parcel;
  }
  return "nothing";
}

int main() {
  std::unique_ptr<std::string> parcel = wrapped("tea");
  std::size_t length = 0;
  if (parcel) {
    stamp(*parcel);
    std::string_view label = *parcel;
    length = label.size();
    std::cout << label << std::endl;
    std::string content = opened(std::move(parcel));
    std::cout << content << ' ' << label << std::endl;
  }
  std::cout << opened(std::make_unique<std::string>("cake")) << ", " << opened(nullptr) << std::endl;
  return length;
}
