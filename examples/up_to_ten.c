/* Whatever the environment puts into x, from 1 to 10, is counted down. */
int main() {
  int x;
  x = [1, 10];
  while (x > 0)
    x = x - 1;
}
