/* Some choices keep y at 0 as long as the loop runs, and after it. */
int main() {
  int x, y;
  while (x > 0) {
    y = [0, 1];
    x = x - 1;
  }
}
