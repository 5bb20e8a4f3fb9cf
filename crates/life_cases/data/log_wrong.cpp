// The helper that shows a log promises to leave the log as it is, and notes that it was shown.
#include <iostream>
#include <string>
#include <string_view>
#include <vector>

void note(std::vector<std::string>& log, std::string_view text) {
  log.push_back(std::string(text));
}

std::size_t show([[life::keeps]] std::vector<std::string>& log, std::size_t from) {
  std::size_t count = 0;
  for (std::size_t i = from; i < log.size(); ++i) {
    std::cout << i << ": " << log[i] << std::endl;
    ++count;
  }
  note(log, "shown");
  return count;
}

int main() {
  std::vector<std::string> log;
  note(log, "started");
  note(log, "two files read");
  const std::string& first = log.front();
  std::size_t shown = show(log, 0);
  std::cout << "first was " << first << std::endl;
  note(log, "ended");
  shown += show(log, shown);
  return shown;
}
