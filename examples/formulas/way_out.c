/* Whatever y is, x may be counted down. */
int main() {
  int x, y;
  while (x > 0) {
    if (?)
      x = x + y;
    else
      x = x - 1;
  }
}
