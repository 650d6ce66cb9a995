/* Some run brings x to at least 5: each turn may add 2. */
int main() {
  int x, n;
  while (n > 0) {
    if (?)
      x = x + 2;
    else
      ;
    n = n - 1;
  }
}
