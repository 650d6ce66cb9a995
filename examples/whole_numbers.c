/* It ends since x and y are whole numbers: from two halves it would not (after Ben-Amram and Genaim, 2013). */
int main() {
  int x, y;
  while (y <= x && x + y >= 1)
    y = y - 2 * x + 1;
}
