// The token of a session is looked at when the session has given it up.
#include <iostream>
#include <memory>

struct Session {
  int number;
  std::unique_ptr<int> token;
};

int main() {
  Session session;
  session.number = 4;
  auto token = std::make_unique<int>(1700);
  session.token = std::move(token);
  std::cout << session.number << ": " << *session.token << std::endl;
  *session.token += session.number;
  int last = 0;
  if (session.token) {
    last = *session.token;
  }
  session.token.reset();
  std::cout << "closed, last " << *session.token << std::endl;
  return last % 100;
}
