// Two matrices in vectors, row by row, are multiplied; a row is a span.
#include <iostream>
#include <vector>
#include <gsl/span>

// The product of a row and a column of a matrix of so many columns.
int product(gsl::span<const int> row, gsl::span<const int> matrix, std::size_t column) {
  int sum = 0;
  for (std::size_t i = 0; i < row.size(); ++i) {
    sum += row[i] * matrix[i * row.size() + column];
  }
  return sum;
}

int main() {
  const std::size_t size = 3;
  std::vector<int> a = {1, 2, 3, 4, 5, 6, 7, 8, 9};
  std::vector<int> b = {2, 0, 0, 0, 1, 1, 0, 3, -1};
  gsl::span<const int> rows = a;
  std::vector<int> c;
  c.reserve(size * size);
  for (std::size_t i = 0; i < size; ++i) {
    gsl::span<const int> row = rows.subspan(i * size, size);
    for (std::size_t j = 0; j < size; ++j) {
      c.push_back(product(row, b, j));
      std::cout << c.back() << ' ';
    }
    std::cout << std::endl;
  }
  int trace = 0;
  for (std::size_t i = 0; i < size; ++i) {
    trace += c[i * size + i];
  }
  return trace;
}
