/* An until: x stays above 0 until it is 0. */
int main() {
  int x;
  while (x != 0)
    x = x - 1;
}
