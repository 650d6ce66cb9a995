/* The inner loop has nine turns each time, so the outer one has a bound (after Urban, 2013). */
int main() {
  int x, y;
  while (x <= 10) {
    y = 10;
    while (y > 1)
      y = y - 1;
    x = x + 1;
  }
}
