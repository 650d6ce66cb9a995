/* The steps behind the loop come on top. */
int main() {
  int x, y;
  while (x >= 1)
    x--;
  if (y > 0)
    y = 0;
  else {
    y = 1;
    y = 2;
  }
}
