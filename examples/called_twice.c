/* One call counts x down, the other y: each has variables of its own. */
void down(int n) {
  while (n > 0)
    n = n - 1;
}

int main() {
  int x, y;
  down(x);
  down(y);
}
