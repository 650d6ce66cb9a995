/* A turn may leave the program; each other one counts x down. */
int main() {
  int x;
  while (x > 0) {
    x = x - 1;
    if (?)
      return;
  }
}
