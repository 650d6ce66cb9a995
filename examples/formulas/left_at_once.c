/* A loop that goes on as long as it likes can be left at its first test. */
int main() {
  int x, y;
  while (?)
    x = x + 1;
  y = 1;
}
