// A session owns its token as long as it is open: whoever looks at the token asks first.
#include <iostream>
#include <memory>

struct Session {
  int number;
  std::unique_ptr<int> token;
};

int main() {
  Session session;
  session.number = 4;
  auto token = std::make_unique<int>(1700);
  session.token = std::move(token);
  std::cout << session.number << ": " << *session.token << std::endl;
  *session.token += session.number;
  int last = 0;
  if (session.token) {
    last = *session.token;
  }
  session.token.reset();
  if (session.token) {
    std::cout << "still open" << std::endl;
  } else if (token == nullptr) {
    std::cout << "closed, last " << last << std::endl;
  }
  return last % 100;
}
