// A ledger hands accounts over by value and takes them back: what it answers is bound before a part of it is looked at.
#include <iostream>
#include <string>
#include <vector>

struct Account {
  std::string owner;
  int balance;
  std::vector<int> bookings;
};

Account opened(std::string owner, int balance) {
  Account account;
  account.owner = std::move(owner);
  account.balance = balance;
  return account;
}

Account booked(Account account, int amount) {
  account.balance += amount;
  account.bookings.push_back(amount);
  return account;
}

const std::string& owner_of(const Account& account) {
  return account.owner;
}

std::string line(const Account& account) {
  std::string text = account.owner + ": ";
  for (int amount : account.bookings) {
    if (amount < 0) {
      text += '-';
    } else {
      text += '+';
    }
  }
  return text;
}

int main() {
  Account ada = booked(booked(opened("Ada", 100), -30), 5);
  Account before = ada;
  ada = booked(ada, -50);
  std::cout << line(ada) << ' ' << ada.balance << ", was " << line(before) << ' ' << before.balance << std::endl;
  const Account& next = booked(before, 1);
  const std::string& owner = owner_of(next);
  std::cout << owner << std::endl;
  return owner.size() + before.balance;
}
