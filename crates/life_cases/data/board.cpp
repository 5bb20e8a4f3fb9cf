// A board of letters: its cells lie in one vector, and a helper gives the place of one back.
#include <iostream>
#include <vector>

struct Board {
  std::vector<char> cells;
  std::size_t width;
};

char& cell([[life::keeps]] Board& board, std::size_t row, std::size_t column) {
  return board.cells[row * board.width + column];
}

void add_row(Board& board, char fill) {
  for (std::size_t i = 0; i < board.width; ++i) {
    board.cells.push_back(fill);
  }
}

void print(const Board& board) {
  for (std::size_t i = 0; i < board.cells.size(); ++i) {
    std::cout << board.cells[i];
    if ((i + 1) % board.width == 0) {
      std::cout << std::endl;
    }
  }
}

int main() {
  Board board;
  board.width = 3;
  add_row(board, '.');
  add_row(board, '.');
  cell(board, 0, 1) = 'x';
  char& corner = cell(board, 1, 2);
  corner = 'o';
  cell(board, 1, 0) = corner;
  add_row(board, '-');
  Board copy = board;
  cell(copy, 2, 1) = 'y';
  print(board);
  print(copy);
  return board.cells.size();
}
