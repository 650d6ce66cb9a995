/* A turn that skips the rest of its body counts x down all the same. */
int main() {
  int x, y;
  while (x > 0) {
    x = x - 1;
    if (y > x)
      continue;
    y = y + 1;
  }
}
