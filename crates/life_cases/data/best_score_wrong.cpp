// The least score is looked at although only the best one was tested: where there is no round, both are null.
#include <iostream>
#include <vector>

struct Best {
  const int* score;
  std::size_t round;
};

int main() {
  std::vector<int> scores = {12, 7, 31, 18, 31};
  Best best{nullptr, 0};
  Best least{};
  for (std::size_t round = 0; round < scores.size(); ++round) {
    if (best.score == nullptr || *best.score < scores[round]) {
      best = Best{&scores[round], round + 1};
    }
    if (!least.score || scores[round] < *least.score) {
      least.score = &scores[round];
      least.round = round + 1;
    }
  }
  int both = 0;
  if (best.score) {
    std::cout << *best.score << " in round " << best.round << std::endl;
    std::cout << *least.score << " in round " << least.round << std::endl;
    both = *best.score + *least.score;
  }
  return both;
}
