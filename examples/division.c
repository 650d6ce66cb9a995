/* Quotient and rest by subtraction, which end where the divisor is above 0 (after Hoare, 1969). */
int main() {
  int quotient, rest, x, y;
  rest = x;
  quotient = 0;
  while (y <= rest) {
    rest = rest - y;
    quotient = 1 + quotient;
  }
}
