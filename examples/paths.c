/* On each path of the body the loop's function falls, on one of them by more than on the others. */
int main() {
  int x, y;
  while (x > 0 && (y > 5 || ?)) {
    if (y < 0) {
      x = x + 1;
      x = x - 2;
    } else if (?)
      x = x - 7;
    else
      x = x - 1;
    y = ?;
  }
}
