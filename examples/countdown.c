/* The simplest loop that ends: a test and a step a turn, and the last test. */
int main() {
  int x;
  while (x > 0)
    x = x - 1;
}
