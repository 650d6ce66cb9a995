/* The turns of the inner loop sum to a square, which no affine function bounds. */
int main() {
  int x, y;
  while (x > 0) {
    y = x;
    while (y > 0)
      y = y - 1;
    x = x - 1;
  }
}
