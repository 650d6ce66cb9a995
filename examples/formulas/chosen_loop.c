/* Some run ends: y counts down where the choice allows it. */
int main() {
  int x, y;
  y = [0, 5];
  while (y > 3)
    ;
}
