/* x + y is at least 0 and rises, so in the end x does (after Bradley, Manna and Sipma, 2005). */
int main() {
  int x, y, n;
  if (x + y >= 0)
    while (x <= n) {
      if (?) {
        x = 2 * x + y;
        y = y + 1;
      } else
        x = x + 1;
    }
}
