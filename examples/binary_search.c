/* Of the numbers between low and high half are left, whichever half. */
int main() {
  int low, high, middle;
  while (high - low > 1) {
    middle = (low + high) / 2;
    if (?)
      low = middle;
    else
      high = middle;
  }
}
