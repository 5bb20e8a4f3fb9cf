// Polynomials are structs of a vector: their product is kept in a variable before a helper gives a reference into it.
#include <iostream>
#include <vector>

struct Polynomial {
  std::vector<int> factors;
};

Polynomial linear(int constant, int slope) {
  Polynomial made;
  made.factors = {constant, slope};
  return made;
}

Polynomial times(const Polynomial& a, const Polynomial& b) {
  Polynomial product;
  for (std::size_t n = 1; n < a.factors.size() + b.factors.size(); ++n) {
    product.factors.push_back(0);
  }
  for (std::size_t i = 0; i < a.factors.size(); ++i) {
    for (std::size_t j = 0; j < b.factors.size(); ++j) {
      product.factors[i + j] += a.factors[i] * b.factors[j];
    }
  }
  return product;
}

const std::vector<int>& factors_of(const Polynomial& polynomial) {
  return polynomial.factors;
}

int main() {
  Polynomial one = linear(1, 1);
  Polynomial cube = times(times(one, one), one);
  Polynomial product = times(cube, linear(2, -1));
  int sum = 0;
  for (int factor : factors_of(product)) {
    std::cout << factor << ' ';
    sum = 2 * sum + factor;
  }
  std::cout << std::endl;
  return sum;
}
