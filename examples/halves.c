/* Half of a number above 1 is at least 1. */
int main() {
  int x;
  while (x > 1)
    x = x - x / 2;
}
