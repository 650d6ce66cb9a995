/* The step rises from turn to turn; a bound is found where it is at least 0 at the start (after Leike and Heizmann, 2014). */
int main() {
  int q, y;
  while (q > 0) {
    q = q - y;
    y = y + 1;
  }
}
