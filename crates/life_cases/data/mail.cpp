// A mail is built by helpers that take it by reference or by value: a view of a part is taken again when that was set.
#include <iostream>
#include <string>
#include <string_view>
#include <vector>

struct Mail {
  std::string to;
  std::string subject;
  std::vector<std::string> lines;
};

Mail started(std::string_view to) {
  Mail mail;
  mail.to = std::string(to);
  mail.subject = "none";
  return mail;
}

Mail with_subject(Mail mail, std::string subject) {
  mail.subject = std::move(subject);
  return mail;
}

void add_line(Mail& mail, std::string_view text) {
  std::string line = "| ";
  line += text;
  mail.lines.push_back(line);
}

std::size_t width(const Mail& mail) {
  std::size_t most = 0;
  for (const std::string& line : mail.lines) {
    if (most < line.size()) {
      most = line.size();
    }
  }
  return most;
}

int main() {
  Mail mail = started("ada");
  add_line(mail, "The engine runs.");
  add_line(mail, "Bring notes.");
  std::string_view subject = mail.subject;
  std::cout << "(" << subject << ") ";
  mail = with_subject(mail, "news of the engine");
  subject = mail.subject;
  std::cout << mail.to << ": " << subject << std::endl;
  for (const auto& line : mail.lines) {
    std::cout << line << std::endl;
  }
  return width(mail) + subject.size();
}
