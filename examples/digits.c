/* The digits of a number are counted. */
int main() {
  int number, digits = 0;
  while (number > 0) {
    number = number / 10;
    digits = digits + 1;
  }
}
