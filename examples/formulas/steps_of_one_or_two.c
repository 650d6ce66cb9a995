/* In steps of 1 or 2 each number above 0 can be brought down to just 0. */
int main() {
  int x, r;
  while (x > 0) {
    r = [1, 2];
    x = x - r;
  }
}
