/* Some run stays below 5 until y is 3, and one comes there. */
int main() {
  int x, y;
  while (y < 3) {
    if (?)
      x = x + 1;
    else
      ;
    y = y + 1;
  }
}
