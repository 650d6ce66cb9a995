/* A test for equality holds at most once here. */
int main() {
  int x;
  while (x == 0)
    x = x - 1;
}
