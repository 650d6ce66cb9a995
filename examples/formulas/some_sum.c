/* Some choice of y makes x come to 10. */
int main() {
  int x, y;
  y = [0, 9];
  x = x + y;
}
