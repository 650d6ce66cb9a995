/* a goes up and down at random, and x counts its moves (after Alias, Darte, Feautrier and Gonnord, 2010). */
int main() {
  int a, x, max;
  if (max > 0) {
    a = 0;
    x = 1;
    while (x <= max) {
      if (?)
        a = a + 1;
      else
        a = a - 1;
      x = x + 1;
    }
  }
}
