/* A turn takes one of y, or one of x for one more of y: 2*x + y falls (after Cook, Podelski and Rybalchenko, 2011). */
int main() {
  int x, y;
  while (x > 0 && y > 0) {
    if (?) {
      x = x - 1;
      y = y + 1;
    } else
      y = y - 1;
  }
}
