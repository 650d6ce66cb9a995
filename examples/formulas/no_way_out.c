/* No run ends from the inputs from which every run goes on. */
int main() {
  int x, y;
  while (x > 0)
    if (?)
      x = x + 1;
    else
      y = y + x;
}
