/* The step falls from turn to turn. It ends from every input; a bound is found where y is at most 0 at the start. */
int main() {
  int x, y;
  while (x >= 0) {
    x = x + y;
    y = y - 1;
  }
}
