// A pointer to the first number of a row is kept while the matrix gets another row.
#include <iostream>
#include <vector>

int main() {
  const std::size_t size = 3;
  std::vector<int> matrix = {1, 2, 3, 4, 5, 6};
  int* row = &matrix[size];
  for (std::size_t i = 0; i < size; ++i) {
    matrix.push_back(matrix[i] + matrix[size + i]);
  }
  // The second row begins with 0 from now on.
  *row = 0;
  int trace = 0;
  for (std::size_t i = 0; i < size; ++i) {
    trace += matrix[i * size + i];
  }
  std::cout << trace << std::endl;
  return trace;
}
