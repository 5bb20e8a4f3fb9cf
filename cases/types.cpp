// The names and types of the whole language are checked: the answer names the call, whose argument is a pointer where a reference is wanted.
int twice(int& x) {
  x += x;
  return x;
}

int main() {
  int x = 2;
  int* p = &x;
  return twice(p);
}
