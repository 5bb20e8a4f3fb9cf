// A pointer is used while what it points to lives.
int main() {
  int x = 4;
  int* p = &x;
  {
    int y = 5;
    p = &y;
    *p = x;
    p = &x;
  }
  return *p;
}
