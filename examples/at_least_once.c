/* The body runs before the first test. */
int main() {
  int x;
  do
    x = x - 1;
  while (x > 0);
}
