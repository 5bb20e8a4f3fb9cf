// The pointer comes to dangle in the fourth turn of the loop, through two others.
int main() {
  int z = 0;
  int* a = &z;
  int* b = &z;
  int* c = &z;
  for (int i = 0; i < 5; ++i) {
    z = *a;
    a = b;
    b = c;
    int x = i;
    c = &x;
  }
  return z;
}
