/* Two choices can be made to meet. */
int main() {
  int x, y;
  x = [0, 5];
  y = [0, 5];
}
