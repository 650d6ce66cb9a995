/* Whatever y is, x is above 10 in the end. */
int main() {
  int x, y;
  y = [0, 9];
  x = x + y;
}
