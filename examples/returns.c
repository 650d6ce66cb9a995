/* Two ways out: the longer one takes the test and three assignments. */
int main() {
  int x, y = 2;
  if (x < 0) {
    x = -x;
    return x;
  }
  y *= x + 1;
  x++;
}
