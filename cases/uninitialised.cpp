// The pointer is used before it points anywhere.
int main() {
  int x = 2;
  int* p;
  int y = *p;
  p = &x;
  return *p;
}
