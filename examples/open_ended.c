/* It ends from each input that is at least 0, and of the others nothing is said (after Urban, 2013). */
int main() {
  int x;
  while (x != 0)
    x = x - 1;
}
