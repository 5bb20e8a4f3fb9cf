// The printer looks at what the title was before the reviewer changed the draft.
#include <iostream>
#include <memory>
#include <string>
#include <string_view>

int main() {
  auto draft = std::make_unique<std::string>();
  *draft = "lifetimes";
  draft->push_back('!');
  auto review = std::move(draft);
  std::string_view title = *review;
  std::cout << title << std::endl;
  *review += " (seen)";
  auto print = std::move(review);
  std::cout << title << ' ' << print->size() << std::endl;
  print.reset();
  if (!draft && review == nullptr && !print) {
    return 1;
  }
  return 0;
}
