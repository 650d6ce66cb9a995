/* x falls, or it rises by 1 as y falls: neither falls on both ways, but 3*x + 7*y does. */
int main() {
  int x, y;
  while (x > 0 && y > 0) {
    if (?)
      x = x - 1;
    else {
      x = x + 1;
      y = y - 1;
    }
  }
}
