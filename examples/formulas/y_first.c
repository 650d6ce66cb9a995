/* Both fall together: y comes below 0 if it is the first to get there. */
int main() {
  int x, y;
  while (x > 0) {
    x = x - 1;
    y = y - 1;
  }
}
