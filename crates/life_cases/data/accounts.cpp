// Accounts are structs in a vector: a helper finds one by its name, and another moves money between two of them.
#include <iostream>
#include <string>
#include <string_view>
#include <vector>

struct Account {
  std::string name;
  int money;
};

Account* find([[life::keeps]] std::vector<Account>& accounts, std::string_view name) {
  for (Account& account : accounts) {
    if (account.name == name) {
      return &account;
    }
  }
  return nullptr;
}

Account opened(std::string name, int money) {
  Account account;
  account.name = std::move(name);
  account.money = money;
  return account;
}

void pay(int& from, int& to, int money) {
  from -= money;
  to += money;
}

int main() {
  std::vector<Account> accounts;
  accounts.push_back(opened("rent", 40));
  accounts.push_back(opened("food", 25));
  Account* rent = find(accounts, "rent");
  Account* food = find(accounts, "food");
  if (rent && food) {
    pay(rent->money, food->money, 15);
  }
  accounts.push_back(opened("books", 3));
  for (const Account& account : accounts) {
    std::cout << account.name << ' ' << account.money << std::endl;
  }
  return accounts[1].money;
}
