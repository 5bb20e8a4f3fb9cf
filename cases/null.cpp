// The pointer is null where it is used, and so is its copy.
int main() {
  int* p = nullptr;
  int* q = p;
  *q = 3;
  return *p;
}
