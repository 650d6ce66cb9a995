/* What is assigned before the loop is carried back into the condition. */
int main() {
  int a, b, x;
  x = 2 * a + b;
  while (x > 0)
    x = x - 3;
}
