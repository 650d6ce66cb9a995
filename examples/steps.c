/* It falls by as much as y is below 0 (after Urban and Miné, 2014). */
int main() {
  int x, y;
  while (x > 0)
    x = x + y;
}
