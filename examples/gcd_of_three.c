/* The greatest common divisor of three numbers, by a function that is called twice. */
int gcd(int a, int b) {
  while (a > 0 && b > 0) {
    if (a > b)
      a = a - b;
    else
      b = b - a;
  }
  return a + b;
}

int main() {
  int x, y, z;
  x = gcd(x, y);
  x = gcd(x, z);
}
