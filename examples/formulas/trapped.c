/* Below 0 no run ever comes back: x stays below 0. */
int main() {
  int x, y;
  while (y > 0) {
    if (x < 0)
      x = x - 1;
    else
      x = x + 1;
    y = y - 1;
  }
}
