/* x + y falls in each turn, but no row of the test does. */
int main() {
  int x, y;
  while (x > 0 && y > 0) {
    if (?)
      x = x - 1;
    else
      y = y - 1;
  }
}
