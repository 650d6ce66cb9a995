/* Whatever the environment puts into x, some y answers it. */
int main() {
  int x, y;
  x = [0, 5];
  y = [0, 9];
}
