// A pointer that a function gives back may lead to either argument, and one of them ends in each turn.
int* second(int* a, int* b) {
  return b;
}
int main() {
  int x = 1;
  int* p = &x;
  for (int i = 0; i < 3; ++i) {
    int y = i;
    p = second(&x, &y);
  }
  if (p != nullptr) {
    return *p;
  }
  return 0;
}
