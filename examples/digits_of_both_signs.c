/* The digits of a number are summed up, whatever its sign. */
int main() {
  int number, sum = 0;
  while (number != 0) {
    sum = sum + number % 10;
    number = number / 10;
  }
}
