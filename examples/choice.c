/* Each way changes both variables, and neither falls on both ways (after Podelski and Rybalchenko, 2004). */
int main() {
  int x, y, old;
  while (x > 0 && y > 0) {
    old = x;
    if (?) {
      x = x - 1;
      y = old;
    } else {
      x = y - 2;
      y = old + 1;
    }
  }
}
