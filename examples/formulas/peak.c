/* x reaches 10 before it falls: it rises until then. */
int main() {
  int x;
  while (x < 10)
    x = x + 1;
  while (x > 0)
    x = x - 1;
}
