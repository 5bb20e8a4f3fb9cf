// One call of 32 arguments: a line of a table is put together from its cells. No cell is the line itself.
#include <iostream>
#include <string>

void join(std::string& line, const std::string& c0, const std::string& c1, const std::string& c2,
          const std::string& c3, const std::string& c4, const std::string& c5,
          const std::string& c6, const std::string& c7, const std::string& c8,
          const std::string& c9, const std::string& c10, const std::string& c11,
          const std::string& c12, const std::string& c13, const std::string& c14,
          const std::string& c15, const std::string& c16, const std::string& c17,
          const std::string& c18, const std::string& c19, const std::string& c20,
          const std::string& c21, const std::string& c22, const std::string& c23,
          const std::string& c24, const std::string& c25, const std::string& c26,
          const std::string& c27, const std::string& c28, const std::string& c29,
          const std::string& c30) {
  line += c0;
  line += c1;
  line += c2;
  line += c3;
  line += c4;
  line += c5;
  line += c6;
  line += c7;
  line += c8;
  line += c9;
  line += c10;
  line += c11;
  line += c12;
  line += c13;
  line += c14;
  line += c15;
  line += c16;
  line += c17;
  line += c18;
  line += c19;
  line += c20;
  line += c21;
  line += c22;
  line += c23;
  line += c24;
  line += c25;
  line += c26;
  line += c27;
  line += c28;
  line += c29;
  line += c30;
}

int main() {
  std::string line;
  std::string dash = "-";
  std::string mark = "x";
  join(line, mark, dash, dash, dash, dash, dash, dash,
       dash, dash, dash, dash, dash, dash, dash, dash,
       mark, dash, dash, dash, dash, dash, dash, dash,
       dash, dash, dash, dash, dash, dash, dash, mark);
  std::cout << line << std::endl;
  return line.size();
}
