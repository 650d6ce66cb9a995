/* A loop in a loop whose turns don't depend on the input. */
int main() {
  int i, n, j;
  i = 0;
  while (i < n) {
    j = 2;
    while (j > 0)
      j = j - 1;
    i = i + 1;
  }
}
