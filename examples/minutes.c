/* Back to the full minute, or on to it: on either side it is less than 60 seconds away. */
int main() {
  int seconds, rest;
  rest = seconds % 60;
  while (rest < 0)
    rest = rest + 1;
  while (rest > 0)
    rest = rest - 1;
}
