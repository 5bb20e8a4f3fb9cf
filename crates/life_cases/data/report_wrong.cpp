// The lines of a report are counted where they were before they were moved into it.
#include <iostream>
#include <string>
#include <vector>

struct Report {
  std::string title;
  std::vector<std::string> lines;
  int sum;
};

int main() {
  std::vector<int> costs = {12, 7, 30};
  std::string title = "costs";
  std::vector<std::string> lines;
  int sum = 0;
  for (int cost : costs) {
    std::string line;
    for (int mark = 0; mark < cost; mark += 5) {
      line += '*';
    }
    lines.push_back(std::move(line));
    sum += cost;
  }
  title += ':';
  Report report;
  report.sum = sum;
  report.title = std::move(title);
  report.lines = std::move(lines);
  std::cout << report.title << std::endl;
  for (const std::string& line : report.lines) {
    std::cout << line << std::endl;
  }
  std::cout << lines.size() << " lines, " << report.sum << std::endl;
  return report.sum;
}
