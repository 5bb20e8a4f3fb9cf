// Helpers on shelves say by attributes what they keep, and what they give back: a part of the shelf alone.
#include <iostream>
#include <string>
#include <vector>

struct Shelf {
  std::string label;
  std::vector<std::string> books;
  int visits;
};

[[life::ret(shelf)]] const std::string& title(const Shelf& shelf, std::size_t at, const std::string& other) {
  if (at < shelf.books.size() && shelf.books[at] != other) {
    return shelf.books[at];
  }
  return shelf.label;
}

void visit([[life::keeps]] Shelf& shelf) {
  ++shelf.visits;
}

void put(Shelf& shelf, std::string book) {
  shelf.books.push_back(std::move(book));
}

int main() {
  Shelf shelf;
  shelf.label = "poems";
  shelf.visits = 0;
  put(shelf, "Odes");
  put(shelf, "Sonnets");
  std::string worn = "Odes";
  const std::string& first = title(shelf, 1, worn);
  worn = "Sonnets";
  visit(shelf);
  visit(shelf);
  std::cout << first << ' ' << title(shelf, 0, worn) << ' ' << title(shelf, 1, worn) << std::endl;
  put(shelf, "Epics");
  return 10 * shelf.visits + shelf.books.size();
}
