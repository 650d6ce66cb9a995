/* It ends from every input, but the number of turns is chosen behind the input, so no bound by the input exists. */
int main() {
  int x;
  x = ?;
  while (x > 0)
    x = x - 1;
}
