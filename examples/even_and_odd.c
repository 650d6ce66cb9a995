/* Even numbers fall faster, but no row says which they are. */
int main() {
  int x;
  while (x > 0) {
    if (x % 2 == 0)
      x = x - 2;
    else
      x = x - 1;
  }
}
