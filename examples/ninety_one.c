/* McCarthy's 91 function, with a count of pending calls in the place of recursion. */
int main() {
  int x, pending = 1;
  while (pending > 0) {
    if (x > 100) {
      x = x - 10;
      pending = pending - 1;
    } else {
      x = x + 11;
      pending = pending + 1;
    }
  }
}
