/* Whether z is 0 decides how fast x rises to 40 (after Alias, Darte, Feautrier and Gonnord, 2010). */
int main() {
  int x = 0, y = 100, z;
  while (x < 40) {
    if (z == 0)
      x = x + 1;
    else
      x = x + 2;
  }
}
