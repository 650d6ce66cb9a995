/* The first loop moves x over to y, and the second counts y down: the turns of both are told by x + y. */
int main() {
  int x, y;
  while (x > 0) {
    y = y + 1;
    x = x - 1;
  }
  while (y > 0)
    y = y - 1;
}
