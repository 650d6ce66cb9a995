/* From which inputs some run never ends: where x is above 0, and never falls to 0. */
int main() {
  int x, y;
  while (x > 0)
    x = x + y;
}
