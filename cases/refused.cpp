// A comment that is never closed: the answer names the place where it begins.
int main() {
  return 0; /* here
}
