/* Safety: a counter that begins at 0 or above never falls below 0. */
int main() {
  int x;
  while (x > 0)
    x = x - 1;
}
