// The pointer outlives the variable of the inner block.
int main() {
  int* p = nullptr;
  {
    int x = 1;
    p = &x;
  }
  return *p;
}
