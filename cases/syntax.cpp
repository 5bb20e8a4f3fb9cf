// A declaration can't stand where a branch begins: the answer names the `y`, at which no program goes on.
int main() {
  if (1) int y = 2;
  return 0;
}
