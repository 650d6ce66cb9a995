/* Two loops: the bound of the second is carried back through the first. */
int main() {
  int x, y;
  while (x > 0)
    x = x - 1;
  while (y > 0)
    y = y - 1;
}
