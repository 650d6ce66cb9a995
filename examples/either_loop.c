/* The loop goes on while either of two is above 0, and first x falls, then y. */
int main() {
  int x, y;
  while (x > 0 || y > 0) {
    if (x > 0)
      x = x - 1;
    else
      y = y - 1;
  }
}
