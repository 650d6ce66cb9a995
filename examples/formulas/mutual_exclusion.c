/* Two take turns: never are both inside. */
int main() {
  int turn, a, b;
  turn = 0;
  a = 0;
  b = 0;
  while (true) {
    if (turn == 0) {
      a = 1;
      a = 0;
      turn = 1;
    } else {
      b = 1;
      b = 0;
      turn = 0;
    }
  }
}
