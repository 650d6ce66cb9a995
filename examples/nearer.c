/* The lesser of two variables rises until they are near (after Alias, Darte, Feautrier and Gonnord, 2010). */
int main() {
  int x, y;
  if (x >= 0 && y >= 0)
    while (x - y > 2 || y - x > 2) {
      if (x < y)
        x = x + 1;
      else
        y = y + 1;
    }
}
