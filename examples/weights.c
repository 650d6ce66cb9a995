/* An affine function of two variables falls by five a turn. */
int main() {
  int x, y;
  while (2 * x - 3 * y > 0) {
    x = x - 1;
    y = y + 1;
  }
}
