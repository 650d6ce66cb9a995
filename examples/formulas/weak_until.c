/* y is 0 as long as x is above 0, if that ends or not: a weak until. */
int main() {
  int x, y;
  while (x > 0) {
    x = x + 1;
    if (x > 100)
      y = 0;
  }
}
